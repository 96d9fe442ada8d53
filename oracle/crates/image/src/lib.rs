//! Tree images, and trees as text. Nothing of the original is needed for them.

pub mod describe;
pub mod kinds;

/// One element of an image: a node, or a token with its text.
#[derive(Debug, Clone, PartialEq, Eq)]
pub struct Element {
    pub kind: u16,
    pub level: u16,
    /// Empty for a node.
    pub text: String,
}

/// Why an image was turned away: a refusal of document 01 (1 to 9) and the
/// first offending element.
#[derive(Debug, PartialEq, Eq)]
pub struct Fault {
    pub number: u32,
    pub element: usize,
}

/// An element without its text, as it stands in an image.
struct Entry {
    kind: u16,
    level: u16,
    length: u32,
}

/// Reads an image; the tests are refusals 1 to 6 of document 01, each over the
/// whole image before the next.
pub fn read(image: &[u8]) -> Result<Vec<Element>, Fault> {
    let (entries, mut texts) = split(image)?;
    let first = |number, bad: &dyn Fn(usize, &Entry) -> bool| {
        let found = entries.iter().enumerate().position(|(i, e)| bad(i, e));
        found.map_or(Ok(()), |element| Err(Fault { number, element }))
    };
    first(3, &|_, e| {
        !kinds::is_node(e.kind) && !kinds::is_token(e.kind)
    })?;
    first(4, &|i, e| !is_placed(e, entries[..i].last()))?;
    first(5, &|_, e| kinds::is_node(e.kind) && e.length != 0)?;
    if entries.iter().map(|e| u64::from(e.length)).sum::<u64>() != texts.len() as u64 {
        let element = entries.len();
        return Err(Fault { number: 5, element });
    }
    let element = |(element, entry): (usize, &Entry)| {
        let (text, rest) = texts.split_at(entry.length as usize);
        texts = rest;
        let text = str::from_utf8(text).map_err(|_| Fault { number: 6, element })?;
        Ok(Element {
            kind: entry.kind,
            level: entry.level,
            text: text.to_owned(),
        })
    };
    entries.iter().enumerate().map(element).collect()
}

/// The elements and the texts of an image; the tests are refusals 1 and 2.
fn split(image: &[u8]) -> Result<(Vec<Entry>, &[u8]), Fault> {
    let fault = |number| Fault { number, element: 0 };
    let (n, rest) = image.split_first_chunk().ok_or(fault(1))?;
    let n = u32::from_le_bytes(*n) as usize;
    let (entries, rest) = rest.split_at_checked(8 * n).ok_or(fault(1))?;
    let (b, texts) = rest.split_first_chunk().ok_or(fault(1))?;
    let b = u32::from_le_bytes(*b) as usize;
    if texts.len() != b {
        return Err(fault(1));
    }
    if n == 0 || n > 4096 || b > 32_000 {
        return Err(fault(2));
    }
    let entry = |e: &[u8; 8]| Entry {
        kind: u16::from_le_bytes([e[0], e[1]]),
        level: u16::from_le_bytes([e[2], e[3]]),
        length: u32::from_le_bytes([e[4], e[5], e[6], e[7]]),
    };
    Ok((entries.as_chunks().0.iter().map(entry).collect(), texts))
}

/// Whether refusal 4 lets an element stand behind the one before it, which it has
/// let stand.
fn is_placed(entry: &Entry, before: Option<&Entry>) -> bool {
    let is_file = entry.kind == kinds::SOURCE_FILE_KIND;
    let Some(before) = before else {
        return is_file && entry.level == 0;
    };
    let deepest = if kinds::is_token(before.kind) {
        before.level
    } else {
        before.level + 1
    };
    !is_file && (1..=deepest.min(200)).contains(&entry.level)
}

/// Writes an image. Nothing is tested.
pub fn write(elements: &[Element]) -> Vec<u8> {
    let length: usize = elements.iter().map(|e| e.text.len()).sum();
    let mut out: Vec<u8> = Vec::with_capacity(8 + 8 * elements.len() + length);
    out.extend((elements.len() as u32).to_le_bytes());
    for element in elements {
        out.extend(element.kind.to_le_bytes());
        out.extend(element.level.to_le_bytes());
        out.extend((element.text.len() as u32).to_le_bytes());
    }
    out.extend((length as u32).to_le_bytes());
    for element in elements {
        out.extend(element.text.as_bytes());
    }
    out
}

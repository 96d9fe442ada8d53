//! Reads a listing back into records and texts, by the words of documents 01 and 02
//! (Ask 2). What two listings that are equal are read back into is equal. Of what
//! writes listings it has the names of the kinds and nothing else.

use crate::records::{NAMES, Records};

type Read<T> = Result<T, &'static str>;

/// The records and texts of a listing, or what is wrong with it. Each text begins
/// where the one before it ends.
pub fn unlisted(listing: &[u8]) -> Result<Records, String> {
    let mut lines = listing.split(|byte| *byte == b'\n');
    // A listing ends with a line end, so behind the last one is nothing.
    if lines.next_back() != Some(&[]) {
        return Err("the last line has no end".to_owned());
    }
    let first = lines.next().ok_or("there is no line")?;
    let wanted = counts(first).map_err(|fault| format!("first line: {fault}"))?;
    let mut out = Records::default();
    // Runs and marks.
    let mut met = [0, 0];
    for (number, line) in lines.enumerate() {
        let name = record(number as u32, line, &mut out)
            .map_err(|fault| format!("line of record {number}: {fault}"))?;
        met[0] += u32::from(name == "run");
        met[1] += u32::from(name == "mark");
    }
    let got = [
        out.records.len() as u32,
        out.texts.len() as u32,
        met[0],
        met[1],
    ];
    if got != wanted {
        return Err(format!("the counts are {wanted:?}, and not {got:?}"));
    }
    Ok(out)
}

/// The four counts of the first line.
fn counts(line: &[u8]) -> Read<[u32; 4]> {
    let mut fields = line.split(|byte| *byte == b' ');
    let mut out = [0; 4];
    for (count, name) in out.iter_mut().zip(["records", "texts", "runs", "marks"]) {
        if fields.next() != Some(name.as_bytes()) {
            return Err("a count with another name");
        }
        *count = decimal(fields.next().ok_or("a count is missing")?)?;
    }
    match fields.next() {
        None => Ok(out),
        Some(_) => Err("more than the counts"),
    }
}

/// Adds the record of a line, which has to have this number, and gives its name.
fn record(number: u32, line: &[u8], out: &mut Records) -> Read<&'static str> {
    let (found, rest) = field(line).ok_or("no name")?;
    if decimal(found)? != number {
        return Err("another number");
    }
    // The operands, if there are any, stand behind a space.
    let (word, operands) = match field(rest) {
        None => (rest, None),
        Some((word, operands)) => (word, Some(operands)),
    };
    let known = |name: &&str| !name.is_empty() && name.as_bytes() == word;
    let kind = NAMES.iter().position(known).ok_or("no such name")?;
    let name = NAMES[kind];
    let [a, b] = match (name, operands) {
        ("text", Some(operands)) => {
            let (length, shown) = field(operands).ok_or("no text")?;
            let offset = out.texts.len();
            unescape(shown, &mut out.texts)?;
            let length = decimal(length)?;
            if out.texts.len() - offset != length as usize {
                return Err("another length than that of the text");
            }
            [offset as u32, length]
        }
        ("mark" | "run" | "run-end" | "again", Some(operand)) => [decimal(operand)?, 0],
        ("if", Some(b"always")) => [0, 0],
        ("if", Some(operands)) => match field(operands) {
            Some((b"lines", mark)) => [1, decimal(mark)?],
            _ => return Err("another condition"),
        },
        ("text" | "mark" | "run" | "run-end" | "again" | "if", None) => {
            return Err("no operand");
        }
        (_, Some(_)) => return Err("an operand where none is"),
        (_, None) => [0, 0],
    };
    out.records.push([kind as u32, a, b]);
    Ok(name)
}

/// What stands before the first space, and what behind it.
fn field(line: &[u8]) -> Option<(&[u8], &[u8])> {
    let space = line.iter().position(|byte| *byte == b' ')?;
    Some((&line[..space], &line[space + 1..]))
}

/// A decimal number without needless zeros.
fn decimal(digits: &[u8]) -> Read<u32> {
    if digits.is_empty() {
        return Err("no number");
    }
    if digits.len() > 1 && digits[0] == b'0' {
        return Err("a number with a needless zero");
    }
    let mut out: u32 = 0;
    for digit in digits {
        if !digit.is_ascii_digit() {
            return Err("no decimal number");
        }
        out = out
            .checked_mul(10)
            .and_then(|tens| tens.checked_add(u32::from(digit - b'0')))
            .ok_or("a number that is too large")?;
    }
    Ok(out)
}

/// Adds the stored bytes of a text. Those that have to be escaped are, and no others.
fn unescape(shown: &[u8], out: &mut Vec<u8>) -> Read<()> {
    let mut rest = shown;
    while let Some((&byte, behind)) = rest.split_first() {
        rest = behind;
        if byte != b'\\' {
            if special(byte) {
                return Err("a byte that is not escaped");
            }
            out.push(byte);
            continue;
        }
        let Some((&[a @ b'0'..=b'3', b @ b'0'..=b'7', c @ b'0'..=b'7'], behind)) =
            rest.split_first_chunk()
        else {
            return Err("a backslash without the octal digits of a byte");
        };
        rest = behind;
        let value = (a - b'0') * 64 + (b - b'0') * 8 + (c - b'0');
        if !special(value) {
            return Err("a byte that is escaped for nothing");
        }
        out.push(value);
    }
    Ok(())
}

/// Whether a byte of a text is escaped.
fn special(byte: u8) -> bool {
    matches!(byte, 0..=31 | 92 | 127)
}

#[cfg(test)]
mod tests {
    use super::*;

    /// Records of every kind, with a text of every byte.
    fn every_kind() -> Records {
        let mut records: Vec<[u32; 3]> = (2..=19).map(|kind| [kind, 0, 0]).collect();
        records.extend([
            [15, 1, 0],
            [15, 1, 4],
            [7, 10, 0],
            [7, u32::MAX, 0],
            [12, 905, 0],
            [13, 7, 0],
            [14, 123, 0],
        ]);
        let mut texts = Vec::new();
        let every: Vec<u8> = (0..=255).collect();
        let more: [&[u8]; 6] = [b"", &every, b"1", b"\\012", b" a  b ", b"\n"];
        for (place, text) in more.into_iter().enumerate() {
            let record = [1, texts.len() as u32, text.len() as u32];
            records.insert(3 * place, record);
            texts.extend(text);
        }
        Records { records, texts }
    }

    #[test]
    fn records_are_read_back() {
        for records in [Records::default(), every_kind()] {
            assert_eq!(unlisted(&records.listing()), Ok(records));
        }
        for byte in 0..=255 {
            for text in [&[byte][..], &[byte, b'0'], &[b'\\', byte], &[byte; 3]] {
                let records = Records {
                    records: vec![[1, 0, text.len() as u32]],
                    texts: text.to_vec(),
                };
                let listing = records.listing();
                let lines = listing.iter().filter(|byte| **byte == b'\n').count();
                assert_eq!(lines, 2);
                assert_eq!(unlisted(&listing), Ok(records));
            }
        }
    }

    #[test]
    fn a_listing_that_is_cut_short_is_refused() {
        let listing = every_kind().listing();
        for length in 0..listing.len() {
            assert!(unlisted(&listing[..length]).is_err(), "{length}");
        }
        assert!(unlisted(&[&listing[..], b"\n"].concat()).is_err());
        assert!(unlisted(&[&listing[..], b"x"].concat()).is_err());
    }

    /// Whatever a byte of a listing is changed to, it is refused or read back into
    /// something else.
    #[test]
    fn every_byte_counts() {
        let records = every_kind();
        let mut listing = records.listing();
        for place in 0..listing.len() {
            let byte = listing[place];
            for other in (0..=255).filter(|other| *other != byte) {
                listing[place] = other;
                assert_ne!(
                    unlisted(&listing).as_ref(),
                    Ok(&records),
                    "{place}, {other}"
                );
            }
            listing[place] = byte;
        }
    }

    /// The fault of a listing of this record that has these counts.
    fn fault(counts: &str, line: &[u8]) -> Option<String> {
        let listing = [counts.as_bytes(), b"\n", line, b"\n"].concat();
        unlisted(&listing).err()
    }

    #[test]
    fn other_texts_are_refused() {
        let text = |length: usize, shown: &[u8]| {
            let line = [format!("0 text {length} ").as_bytes(), shown].concat();
            let counts = format!("records 1 texts {length} runs 0 marks 0");
            fault(&counts, &line).map(|f| f.replace("line of record 0: ", ""))
        };
        let digits = Some("a backslash without the octal digits of a byte".to_owned());
        for shown in [
            &b"\\12"[..],
            b"\\400",
            b"\\777",
            b"\\",
            b"\\\\",
            b"\\n",
            b"\\0",
            b"\\01",
            b"\\018",
            b"\\x0a",
        ] {
            for length in 1..=shown.len() {
                assert_eq!(text(length, shown), digits, "{shown:?}");
            }
        }
        let nothing = Some("a byte that is escaped for nothing".to_owned());
        for shown in ["\\141", "\\040", "\\060", "\\176", "\\200", "\\377"] {
            assert_eq!(text(1, shown.as_bytes()), nothing, "{shown}");
        }
        let raw = Some("a byte that is not escaped".to_owned());
        for byte in (0..=31).chain([127]).filter(|byte| *byte != b'\n') {
            assert_eq!(text(1, &[byte]), raw, "{byte}");
        }
        assert!(text(1, b"\n").is_some());
        let length = Some("another length than that of the text".to_owned());
        assert_eq!(text(4, b"\\012"), length);
        assert_eq!(text(0, b"a"), length);
        assert_eq!(text(1, b""), length);
        assert_eq!(text(1, b"\\012"), None);
        assert_eq!(text(4, b"\\134012"), None);
        assert_eq!(text(2, "é".as_bytes()), None);
    }

    #[test]
    fn other_lines_are_refused() {
        let one = "records 1 texts 0 runs 0 marks 0";
        let lines = [
            "",
            "0",
            "0 ",
            "1 tab",
            "00 tab",
            " 0 tab",
            "0  tab",
            "0 tab ",
            "0 tab 0",
            "0\ttab",
            "0 Tab",
            "0 tabs",
            "0 tab\r",
            "+0 tab",
            "0 text",
            "0 text 0",
            "0 text 00 ",
            "0 mark",
            "0 mark ",
            "0 mark 01",
            "0 mark 1 ",
            "0 mark -1",
            "0 mark 4294967296",
            "0 run",
            "0 run-end x",
            "0 again 1 2",
            "0 if",
            "0 if ",
            "0 if never",
            "0 if always ",
            "0 if lines",
            "0 if lines ",
            "0 if lines 00",
            "0 if lines 1 2",
        ];
        for line in lines {
            assert!(fault(one, line.as_bytes()).is_some(), "{line:?}");
        }
        for line in ["0 tab", "0 text 0 ", "0 if always", "0 if lines 4294967295"] {
            assert_eq!(fault(one, line.as_bytes()), None, "{line}");
        }
    }

    #[test]
    fn other_counts_are_refused() {
        for counts in [
            "",
            "records 1 texts 0 runs 0",
            "records 1 texts 0 runs 0 marks",
            "records 1 texts 0 runs 0 marks 1",
            "records 1 texts 0 runs 1 marks 0",
            "records 1 texts 1 runs 0 marks 0",
            "records 2 texts 0 runs 0 marks 0",
            "records 0 texts 0 runs 0 marks 0",
            "records 01 texts 0 runs 0 marks 0",
            "records 1 texts 0 runs 0 marks 0 ",
            "records 1  texts 0 runs 0 marks 0",
            "records 1 runs 0 texts 0 marks 0",
            " records 1 texts 0 runs 0 marks 0",
            "records 1 texts 0 runs 0 marks 0 dropped 0",
        ] {
            assert!(fault(counts, b"0 tab").is_some(), "{counts:?}");
        }
        assert_eq!(fault("records 1 texts 0 runs 0 marks 1", b"0 mark 0"), None);
        assert_eq!(fault("records 1 texts 0 runs 1 marks 0", b"0 run 0"), None);
    }
}

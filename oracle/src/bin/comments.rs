//! `comments` reads tokens (a byte of kind, four bytes of length, the text) and
//! writes for each what the original prints of it above an item and inline, each
//! as four bytes of length and that many bytes of items: a byte of kind, and for
//! a text four bytes of length and its bytes. It stops if a token after all
//! items does not print what it prints above an item.

use std::io::{self, Read, Write};

use oracle::{print, records::Records};

const TEXT: u32 = 1;

fn main() -> io::Result<()> {
    let mut input = Vec::new();
    io::stdin().read_to_end(&mut input)?;
    let mut out = Vec::new();
    let mut rest = input.as_slice();
    while let [kind, a, b, c, d, more @ ..] = rest {
        let (text, behind) = more.split_at(u32::from_le_bytes([*a, *b, *c, *d]) as usize);
        rest = behind;
        let text = std::str::from_utf8(text).expect("valid UTF-8");
        let [above, inline, end] =
            [0, 1, 2].map(|place| print::comment(u16::from(*kind), text, place));
        assert_eq!(above, end, "after all items: {text:?}");
        for records in [above, inline] {
            let bytes = encoded(&records);
            out.extend((bytes.len() as u32).to_le_bytes());
            out.extend(bytes);
        }
    }
    io::stdout().write_all(&out)
}

fn encoded(records: &Records) -> Vec<u8> {
    let mut out = Vec::new();
    for &[kind, offset, length] in &records.records {
        out.push(kind as u8);
        if kind == TEXT {
            out.extend(length.to_le_bytes());
            out.extend(&records.texts[offset as usize..][..length as usize]);
        }
    }
    out
}

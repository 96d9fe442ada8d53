//! The bytes that the listing escapes: how often the generated trees print them, and
//! that their listings are read back.

use oracle::{
    DEFAULT_COUNT, DEFAULT_SEED,
    generate::{Family, Options, generate},
    image::{self, Element},
    kinds,
    print::{Mode, Printed, deep, print},
    records::Records,
    unlisted::unlisted,
};

fn is_escaped(byte: u8) -> bool {
    byte < 32 || byte == 127 || byte == b'\\'
}

/// Whether there is a byte of each sort among those of an image's texts: one that is
/// escaped; line feed, tab, carriage return, another one below 32, backslash, 127;
/// one from 128 on.
fn sorts(texts: &[u8]) -> [bool; 8] {
    let any = |of: &dyn Fn(u8) -> bool| texts.iter().any(|byte| of(*byte));
    [
        any(&is_escaped),
        any(&|byte| byte == b'\n'),
        any(&|byte| byte == b'\t'),
        any(&|byte| byte == b'\r'),
        any(&|byte| byte < 32 && !b"\n\t\r".contains(&byte)),
        any(&|byte| byte == b'\\'),
        any(&|byte| byte == 127),
        any(&|byte| byte >= 128),
    ]
}

/// What escaped bytes may stand in.
const SOURCES: [&str; 11] = [
    "string",
    "verbatim string",
    "broken string",
    "number",
    "literal",
    "import",
    "identifier",
    "operator",
    "Visibility",
    "comment",
    "error",
];

fn source(kind: u16) -> Option<&'static str> {
    Some(match kind {
        65..=69 => "comment",
        70..=72 => "error",
        73 | 75 => "string",
        77 | 79 => "verbatim string",
        74 | 76 | 78 | 80..=86 => "broken string",
        87 => "number",
        88 => "literal",
        89 => "import",
        90 => "identifier",
        91..=93 => "operator",
        _ => return None,
    })
}

/// Which of the sources an image prints escaped bytes of: those whose whole text is
/// that of a record, comments and errors of which a record's text is a part.
fn sources(elements: &[Element], records: &Records) -> Vec<&'static str> {
    let texts = records.records.iter().filter(|r| r[0] == 1);
    let texts: Vec<&[u8]> = texts
        .map(|r| &records.texts[r[1] as usize..][..r[2] as usize])
        .filter(|text| text.iter().any(|byte| is_escaped(*byte)))
        .collect();
    let is_printed = |text: &str| texts.contains(&text.as_bytes());
    let has_part = |text: &str| {
        texts
            .iter()
            .any(|t| text.as_bytes().windows(t.len()).any(|window| window == *t))
    };
    let mut out = Vec::new();
    for (at, element) in elements.iter().enumerate() {
        if kinds::name(element.kind) == "Visibility" {
            let inside = elements[at + 1..].iter();
            let inside = inside.take_while(|e| e.level > element.level);
            if is_printed(&inside.map(|e| &*e.text).collect::<String>()) {
                out.push("Visibility");
            }
            continue;
        }
        let printed = match source(element.kind) {
            None => continue,
            Some("comment" | "error") => has_part(&element.text),
            Some(_) => is_printed(&element.text),
        };
        if printed {
            out.extend(source(element.kind));
        }
    }
    out
}

/// Of the first images of a seed: how many print in the plain mode, how many of those
/// a text with a byte of each sort, and how many one that is escaped from each source.
fn reach(only: Option<Family>) -> ([usize; 9], [usize; 11]) {
    let (mut by_sort, mut by_source) = ([0; 9], [0; 11]);
    for number in 0..DEFAULT_COUNT {
        let options = Options {
            only,
            ..Options::default()
        };
        let bytes = generate(DEFAULT_SEED, number, options).image;
        let elements = image::read(&bytes).expect("a valid image");
        let Printed::Items(records) = print(&elements, Mode::Plain) else {
            continue;
        };
        let sorts = sorts(&records.texts);
        by_sort[0] += 1;
        for (count, met) in by_sort[1..].iter_mut().zip(sorts) {
            *count += usize::from(met);
        }
        if sorts[0] {
            let sources = sources(&elements, &records);
            for (count, name) in by_source.iter_mut().zip(SOURCES) {
                *count += usize::from(sources.contains(&name));
            }
        }
    }
    (by_sort, by_source)
}

fn thousands(n: usize) -> String {
    match n {
        0..1_000 => n.to_string(),
        _ => format!("{},{:03}", n / 1_000, n % 1_000),
    }
}

#[test]
fn the_counts_are_those_of_the_readme() {
    let readme = include_str!("../README.md");
    let families = [
        ("all families", None),
        ("statements", Some(Family::Statements)),
        ("texts", Some(Family::Texts)),
    ];
    for (name, only) in families {
        let (by_sort, by_source) = deep(|| reach(only));
        let rows = [
            by_sort.map(thousands).join(" | "),
            by_source.map(thousands).join(" | "),
        ];
        for row in rows.map(|counts| format!("| {name} | {counts} |")) {
            assert!(readme.contains(&row), "README.md lacks {row}");
        }
    }
}

/// Whatever is printed, its listing is read back into the same records and texts.
#[test]
fn listings_of_generated_trees_are_read_back() {
    deep(|| {
        let mut read = 0;
        for number in 0..6_000 {
            let options = Options {
                only: [None, Some(Family::Statements), Some(Family::Texts)][number as usize % 3],
                ..Options::default()
            };
            let bytes = generate(DEFAULT_SEED, number, options).image;
            let elements = image::read(&bytes).expect("a valid image");
            for mode in Mode::BOTH {
                if let Printed::Items(records) = print(&elements, mode) {
                    assert_eq!(unlisted(&records.listing()), Ok(records));
                    read += 1;
                }
            }
        }
        assert!(read > 10_000, "{read}");
    });
}

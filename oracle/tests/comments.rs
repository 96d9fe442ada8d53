//! A comment by itself gives the records that it gives in a tree.

use oracle::{
    generate::{Options, generate},
    image::{self, Element},
    print::{Mode, Printed, comment, print},
    records::Records,
};

fn element(kind: u16, level: u16, text: &str) -> Element {
    Element {
        kind,
        level,
        text: text.to_owned(),
    }
}

fn printed(elements: &[Element]) -> Records {
    match print(elements, Mode::Plain) {
        Printed::Items(records) => records,
        Printed::Panicked { message, .. } => panic!("{message}"),
    }
}

/// A file with the number 1, a token before it and one after it.
fn file(before: Option<&Element>, after: Option<&Element>) -> Records {
    let mut all = vec![element(1, 0, "")];
    all.extend(before.map(|t| element(t.kind, 1, &t.text)));
    all.extend([element(2, 1, ""), element(8, 2, ""), element(87, 3, "1")]);
    all.extend(after.map(|t| element(t.kind, 1, &t.text)));
    printed(&all)
}

/// An array of the number 1 with a token after it.
fn array(inline: Option<&Element>) -> Records {
    let mut all = vec![element(1, 0, ""), element(2, 1, ""), element(10, 2, "")];
    all.extend([element(98, 3, "["), element(2, 3, "")]);
    all.extend([element(8, 4, ""), element(87, 5, "1")]);
    all.extend(inline.map(|t| element(t.kind, 3, &t.text)));
    all.push(element(99, 3, "]"));
    printed(&all)
}

/// `whole` is `frame` with `part` between its first `at` records and the others.
fn assert_between(whole: &Records, frame: &Records, at: usize, part: &Records) {
    let items = |r: &Records| -> Vec<(u32, Vec<u8>)> {
        let text = |[kind, a, b]: [u32; 3]| match kind {
            1 => r.texts[a as usize..][..b as usize].to_vec(),
            _ => vec![a as u8, b as u8],
        };
        r.records.iter().map(|&r| (r[0], text(r))).collect()
    };
    let mut expected = items(frame);
    expected.splice(at..at, items(part));
    assert_eq!(items(whole), expected);
}

#[test]
fn alone_as_in_trees() {
    let empty_file = file(None, None);
    let empty_array = array(None);
    // Behind the condition for the comma: `[`, mark, if, block, newline, run,
    // two groups, `1`, if, `,`, end-if.
    let inline_at = 12;
    let mut inline = 0;
    for number in 0..300 {
        let bytes = generate(5, number, Options::default()).image;
        for token in image::read(&bytes).expect("a valid image") {
            if !(64..=72).contains(&token.kind) || token.text.len() > 1_000 {
                continue;
            }
            let part = |place| comment(token.kind, &token.text, place);
            let count = empty_file.records.len();
            assert_between(&file(Some(&token), None), &empty_file, 0, &part(0));
            assert_between(&file(None, Some(&token)), &empty_file, count, &part(2));
            // Errors wait for the next child, and so does what holds a line feed
            // and is no single-line comment.
            let waits = token.text.contains('\n') && !(68..=69).contains(&token.kind);
            if token.kind < 70 && !waits {
                assert_between(&array(Some(&token)), &empty_array, inline_at, &part(1));
                inline += 1;
            }
        }
    }
    assert!(inline > 1_000);
}

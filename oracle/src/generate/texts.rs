//! Small trees whose tokens have bytes in their texts that the listing escapes, and
//! some that it does not.

use super::{
    comments,
    grammar::{self, Style},
    node::Node,
    random,
    rng::Rng,
    statements,
};

/// What is put into texts. Some of it reads like an escape, or stands beside the
/// bytes that are escaped.
const PIECES: [&str; 27] = [
    "\n",
    "\n",
    "\n",
    "\r\n",
    "\r",
    "\t",
    "\t\t",
    "\0",
    "\u{1b}",
    "\u{1f}",
    "\u{7f}",
    "\u{7f}",
    "\\",
    "\\",
    "\\\\",
    "\\n",
    "\\012",
    "\\134",
    " ",
    "[",
    "~",
    "7",
    "é",
    "\u{80}",
    "\u{85}",
    "漢",
    "\u{10ffff}",
];

/// Strings of all kinds but blocks, and what is left of them.
const STRINGS: [(u16, &str); 13] = [
    (73, "\"s\""),
    (74, "\"s"),
    (75, "'s'"),
    (76, "'s"),
    (77, "@\"s\""),
    (77, "@\"s\""),
    (78, "@\"s"),
    (79, "@'s'"),
    (79, "@'s'"),
    (80, "@'s"),
    (81, "@"),
    (83, "|||"),
    (85, "|||\n"),
];

/// A file of which some tokens, or most, have such texts.
pub fn file(rng: &mut Rng) -> Node {
    let mut root = match rng.below(20) {
        0..=8 => grammar::file(rng, 20, Style::LIGHT),
        9..=12 => grammar::file(rng, 10, Style::COMMENTS),
        13..=16 => statements::file(rng),
        _ => random::tree(rng),
    };
    let share = rng.pick(&[15, 40, 80]);
    root.each_node(&mut |kind, children| {
        // In what is read in turn, so that it is printed: in a file, or in a list.
        if matches!(kind, 1 | 10 | 22 | 26 | 27 | 47) && rng.chance(12) {
            let place = rng.below(children.len() + 1);
            children.insert(place, comments::error(rng));
        }
        for child in children {
            if let Node::Token(kind, text) = child
                && rng.chance(share)
            {
                change(rng, kind, text);
            }
        }
    });
    root
}

/// Puts pieces into a text. A string may become one of another kind.
fn change(rng: &mut Rng, kind: &mut u16, text: &mut String) {
    if (73..=86).contains(kind) && rng.chance(70) {
        let (other, usual) = rng.pick(&STRINGS);
        *kind = other;
        *text = usual.to_owned();
    }
    for _ in 0..1 + rng.below(3) {
        let place = place(rng, *kind, text);
        if rng.chance(20) {
            text.insert(place, rng.below(32) as u8 as char);
        } else {
            text.insert_str(place, rng.pick(&PIECES));
        }
    }
}

/// A place in a text: within the quotes of a string, and behind the opening of a
/// comment and before its ending.
fn place(rng: &mut Rng, kind: u16, text: &str) -> usize {
    let (opening, ending) = match kind {
        65 => (2, 2),
        68 => (1, 0),
        69 => (2, 0),
        73 | 75 => (1, 1),
        77 | 79 => (2, 1),
        _ => (0, 0),
    };
    let inside = opening..=text.len().saturating_sub(ending);
    let places: Vec<usize> = inside.filter(|at| text.is_char_boundary(*at)).collect();
    if places.is_empty() {
        text.len()
    } else {
        rng.pick(&places)
    }
}

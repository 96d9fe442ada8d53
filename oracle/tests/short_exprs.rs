//! What Exprs of a few parts print in both modes, by a second reading of documents
//! 01 and 02.

use oracle::{
    image::Element,
    print::{Mode, Printed, comment, print},
    records::Records,
};

fn element(kind: u16, level: u16, text: &str) -> Element {
    Element {
        kind,
        level,
        text: text.to_owned(),
    }
}

type Part = (u16, &'static str);

/// What may stand in an Expr, as kind and text: white space without and with a line
/// feed, comments, an error, `,`; a statement, a base and a suffix.
const PARTS: [Part; 11] = [
    (64, " "),
    (64, "\n"),
    (68, "# k\n"),
    (69, "// l"),
    (65, "/* a */"),
    (65, "/*a\nb*/"),
    (70, "e"),
    (94, ","),
    (STMT, "local"),
    (BASE, "1"),
    (SUFFIX, "."),
];
const STMT: u16 = 22;
const BASE: u16 = 8;
const SUFFIX: u16 = 18;

fn is_trivia(part: &Part) -> bool {
    (64..=69).contains(&part.0)
}
fn is_error(part: &Part) -> bool {
    (70..=72).contains(&part.0)
}

/// A file with one Expr of these parts. A node has its text in a token.
fn file(parts: &[Part]) -> Vec<Element> {
    let mut all = vec![element(1, 0, ""), element(2, 1, "")];
    for &(kind, text) in parts {
        let token = match kind {
            STMT => 105,
            BASE => 87,
            SUFFIX => 107,
            _ => {
                all.push(element(kind, 2, text));
                continue;
            }
        };
        all.extend([element(kind, 2, ""), element(token, 3, text)]);
    }
    all
}

/// What a reading gives.
struct Reading {
    children: usize,
    /// Trivia and errors before the first child, between two, and after the last.
    gaps: Vec<Vec<Part>>,
}

/// A reading of parts, whose children are of a kind; `None` if it is refused.
fn reading(parts: &[Part], wanted: u16, loose: bool) -> Option<Reading> {
    let mut out = Reading {
        children: 0,
        gaps: vec![vec![]],
    };
    let mut had_some = false;
    for part in parts {
        if part.0 == wanted {
            out.children += 1;
            out.gaps.push(vec![]);
            had_some = true;
        } else if is_trivia(part) || is_error(part) {
            out.gaps.last_mut()?.push(*part);
            had_some |= is_trivia(part);
        } else if loose && had_some {
            break;
        } else if !loose && part.0 != 94 {
            return None;
        }
    }
    Some(out)
}

/// Parts a gap behind a child: what is inline to the child, and what waits. The cut
/// lies before the first trivia with a line feed that is no single-line comment, or
/// just after the first single-line comment.
fn cut(gap: &[Part]) -> (Vec<Part>, Vec<Part>) {
    let single_line = |part: &Part| (68..=69).contains(&part.0);
    let cuts = |part: &Part| single_line(part) || is_trivia(part) && part.1.contains('\n');
    let at = gap.iter().position(cuts);
    let at = at.map_or(gap.len(), |at| at + usize::from(single_line(&gap[at])));
    let (before, after) = gap.split_at(at);
    let inline = before.iter().copied().filter(is_trivia).collect();
    let waits = before.iter().copied().filter(is_error);
    (inline, waits.chain(after.iter().copied()).collect())
}

const TEXT: u32 = 1;

fn add(out: &mut Records, part: &Records) {
    for &[kind, a, b] in &part.records {
        let offset = if kind == TEXT { out.texts.len() } else { 0 };
        out.records.push([kind, offset as u32, b]);
        if kind == TEXT {
            out.texts.extend(&part.texts[a as usize..][..b as usize]);
        }
    }
}
fn add_text(out: &mut Records, text: &str) {
    out.records
        .push([TEXT, out.texts.len() as u32, text.len() as u32]);
    out.texts.extend(text.as_bytes());
}
fn add_signals(out: &mut Records, kinds: &[u32]) {
    out.records.extend(kinds.iter().map(|kind| [*kind, 0, 0]));
}

/// What document 02 says that a file with such an Expr prints.
fn expected(parts: &[Part], mode: Mode) -> Option<Records> {
    let [newline, indent, outdent] = [2, 5, 6];
    let [above, end_of_items] = [0, 2];
    let mut out = Records::default();
    let keep = |out: &mut Records, list: &[Part], place| {
        if mode == Mode::Keeping {
            for (kind, text) in list {
                add(out, &comment(*kind, text, place));
            }
        }
    };
    let base = parts.iter().position(|part| part.0 == BASE);
    let statements = reading(&parts[..base.unwrap_or(parts.len())], STMT, base.is_none())?;
    let mut waits = statements.gaps[0].clone();
    for gap in &statements.gaps[1..] {
        keep(&mut out, &waits, above);
        add_text(&mut out, "local");
        add_signals(&mut out, &[indent, newline, outdent]);
        add_text(&mut out, ";");
        add_signals(&mut out, &[newline]);
        let (inline, next) = cut(gap);
        keep(&mut out, &inline, end_of_items);
        waits = next;
    }
    keep(&mut out, &waits, end_of_items);
    add_text(&mut out, base.map_or("/*missing ExprBase*/", |_| "1"));
    let behind = base.map_or(parts, |at| &parts[at + 1..]);
    for _ in 0..reading(behind, SUFFIX, base.is_none())?.children {
        add_text(&mut out, ".");
        add_text(&mut out, "/*missing Name*/");
    }
    add_signals(&mut out, &[newline]);
    Some(out)
}

#[test]
fn exprs_of_up_to_five_parts() {
    let mut printed = 0;
    for length in 0..=5 {
        for number in 0..PARTS.len().pow(length) {
            let part = |place| PARTS[number / PARTS.len().pow(place) % PARTS.len()];
            let parts: Vec<Part> = (0..length).map(part).collect();
            for mode in Mode::BOTH {
                match (print(&file(&parts), mode), expected(&parts, mode)) {
                    (Printed::Items(ours), Some(wanted)) => {
                        assert_eq!(ours, wanted, "{mode:?} {parts:?}");
                        printed += 1;
                    }
                    (Printed::Panicked { .. }, None) => {}
                    (ours, wanted) => panic!("{mode:?} {parts:?}: {ours:?}, and not {wanted:?}"),
                }
            }
        }
    }
    assert!(printed > 100_000, "{printed}");
}

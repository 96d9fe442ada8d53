//! Images of 4,096 elements, each of one shape, to time the printing.

use super::{
    MAX_BYTES, MAX_ELEMENTS,
    edges::{file, number},
    node::{Node, token, usual},
};
use crate::image::{self, Element};

/// An array of these items, a comma behind each.
fn array(items: Vec<Node>) -> Node {
    let commas = items.into_iter().flat_map(|item| [item, usual(94)]);
    list(commas.collect())
}
/// An array of these elements between its brackets.
fn list(mut inside: Vec<Node>) -> Node {
    inside.insert(0, usual(98));
    inside.push(usual(99));
    Node::Node(2, vec![Node::Node(10, inside)])
}
fn name() -> Node {
    Node::Node(43, vec![usual(90)])
}

/// What a number with its comma, and a list without items with its comma, add.
const NUMBER: usize = 4;
const LIST: usize = 5;
/// What can stand under a SourceFile.
const ROOM: usize = MAX_ELEMENTS - 1;

/// Lists of four inside one another, numbers in the innermost, in at most so
/// many elements.
fn balanced(room: usize) -> Node {
    let mut left = room - LIST + 1;
    if left / 4 < LIST + NUMBER {
        return array(vec![number(); left / NUMBER]);
    }
    let mut items = Vec::new();
    for missing in [4, 3, 2, 1] {
        let item = balanced(left / missing - 1);
        left -= item.size() + 1;
        items.push(item);
    }
    array(items)
}

/// Lists inside one another and a variable in the last, so that its identifier
/// is at level 200. Before its inner list each has numbers: as many in all as
/// fit, spread by `share`, which says how many of them all stand in the lists
/// below a number.
fn deep(share: impl Fn(usize, usize) -> usize) -> Node {
    let variable = Node::Node(2, vec![Node::Node(14, vec![name()])]);
    let numbers = (ROOM - variable.size() - LISTS * LIST) / NUMBER;
    (0..LISTS).fold(variable, |inner, at| {
        let mut items = vec![number(); share(numbers, at + 1) - share(numbers, at)];
        items.push(inner);
        array(items)
    })
}
/// A list takes two levels, the variable four.
const LISTS: usize = (200 - 4) / 2;

/// One array of as many numbers as fit.
fn numbers() -> Node {
    array(vec![number(); (ROOM - LIST + 1) / NUMBER])
}

/// As many of these as fit between braces, a comma behind each, in elements
/// that leave so much room.
fn braces(room: usize, item: Node) -> Vec<Node> {
    let mut inside = vec![usual(100)];
    let count = (room - 2) / (item.size() + 1);
    inside.extend((0..count).flat_map(|_| [item.clone(), usual(94)]));
    inside.push(usual(101));
    inside
}

/// One object of as many fields as fit.
fn object() -> Node {
    let fixed = Node::Node(41, vec![name()]);
    let visibility = Node::Node(56, vec![usual(102)]);
    let field = Node::Node(30, vec![fixed, visibility, number()]);
    let body = Node::Node(27, braces(ROOM - 3, field));
    Node::Node(2, vec![Node::Node(11, vec![body])])
}

/// A local that takes apart an object of as many fields as fit.
fn destruct() -> Node {
    let field = Node::Node(55, vec![name()]);
    let all = Node::Node(38, braces(ROOM - 8, field));
    let bind = Node::Node(24, vec![all]);
    let local = Node::Node(22, vec![usual(105), bind, usual(95)]);
    Node::Node(2, vec![local, Node::Node(8, vec![usual(87)])])
}

/// An image of 4,096 elements: white space is added behind the expression.
fn full(expr: Node) -> Vec<Element> {
    let mut children = vec![expr];
    let missing = ROOM - children[0].size();
    children.extend(vec![usual(64); missing]);
    file(children)
}

/// The same with longer numbers, as near to 32,000 bytes as equal ones come.
fn long(mut elements: Vec<Element>) -> Vec<Element> {
    let bytes: usize = elements.iter().map(|e| e.text.len()).sum();
    let numbers = elements.iter().filter(|e| e.kind == 87).count();
    let more = "1".repeat((MAX_BYTES - bytes) / numbers);
    for number in elements.iter_mut().filter(|e| e.kind == 87) {
        number.text.push_str(&more);
    }
    elements
}

/// The images by name. The first is the balanced one.
pub fn large() -> Vec<(&'static str, Vec<u8>)> {
    let slim = Node::Node(2, vec![usual(107)]);
    let slim_ones = list(vec![slim; (ROOM - LIST + 1) / 2]);
    let comments = list(vec![token(68, "# c"); ROOM - LIST + 1]);
    let evenly = |all: usize, lists: usize| all * lists / LISTS;
    let innermost = |all: usize, lists: usize| if lists == 0 { 0 } else { all };
    [
        ("balanced", full(balanced(ROOM))),
        ("deep", full(deep(evenly))),
        (
            "deep, the rest in the innermost list",
            full(deep(innermost)),
        ),
        ("wide", full(numbers())),
        ("wide, children of two elements", full(slim_ones)),
        ("wide, fields of an object", full(object())),
        ("wide, fields of a destructuring", full(destruct())),
        ("wide, comments", full(comments)),
        ("balanced, 32,000 bytes", long(full(balanced(ROOM)))),
        ("deep, 32,000 bytes", long(full(deep(evenly)))),
        ("wide, 32,000 bytes", long(full(numbers()))),
    ]
    .map(|(name, elements)| (name, image::write(&elements)))
    .into()
}

#[cfg(test)]
mod tests {
    use super::*;
    use crate::print::{Mode, Printed, deep as on_deep_stack, print};

    #[test]
    fn shapes_are_as_large_as_they_can_be() {
        on_deep_stack(|| {
            for (name, bytes) in large() {
                let elements = image::read(&bytes).expect("a valid image");
                assert_eq!(elements.len(), MAX_ELEMENTS, "{name}");
                let added = elements.iter().filter(|e| e.kind == 64).count();
                assert!(added < 4, "{name}: {added}");
                let level = elements.iter().map(|e| e.level).max().expect("a root");
                match name {
                    _ if name.starts_with("deep") => assert_eq!(level, 200, "{name}"),
                    _ => assert!(level < 16, "{name}: {level}"),
                }
                let length: usize = elements.iter().map(|e| e.text.len()).sum();
                let long = name.ends_with("bytes");
                assert_eq!(length > MAX_BYTES - 1_000, long, "{name}: {length}");
                assert!(
                    matches!(print(&elements, Mode::Plain), Printed::Items(_)),
                    "{name}"
                );
            }
        });
    }
}

//! Trees of one extreme shape: deep and wide ones, and images that fill their
//! limits.

use super::{
    MAX_BYTES, MAX_ELEMENTS, comments,
    grammar::{Grammar, Style},
    node::{Node, token, usual},
    rng::Rng,
};
use crate::image::Element;

const MAX_LEVEL: usize = 200;

fn grammar(rng: &mut Rng) -> Grammar<'_> {
    let style = if rng.chance(50) {
        Style::LIGHT
    } else {
        Style::COMMENTS
    };
    let budget = 0;
    Grammar { rng, budget, style }
}

/// Lists inside one another; in one of three the deepest element is at level
/// 200.
pub fn deep(rng: &mut Rng) -> Node {
    let mut g = grammar(rng);
    let mut left = if g.rng.chance(33) {
        MAX_LEVEL
    } else {
        40 + g.rng.below(MAX_LEVEL - 40)
    };
    let mut inner = Node::Node(2, vec![Node::Node(8, vec![usual(87)])]);
    left -= 3;
    while left > 1 {
        let sort = g.rng.below(10);
        let levels = [2, 2, 2, 2, 2, 3, 4, 4, 4, 5][sort];
        // One level cannot be filled, all other numbers can.
        if levels > left || levels + 1 == left {
            continue;
        }
        left -= levels;
        inner = around(&mut g, sort, inner);
    }
    Node::Node(1, vec![inner])
}

/// An expression around an expression.
fn around(g: &mut Grammar<'_>, sort: usize, inner: Node) -> Node {
    let expr = |base| Node::Node(2, vec![base]);
    let mut list = |open, item, close| {
        let mut out = vec![usual(open)];
        if g.rng.chance(15) {
            g.gap(&mut out);
        }
        out.push(item);
        if g.rng.chance(15) {
            g.gap(&mut out);
        }
        out.push(usual(close));
        out
    };
    match sort {
        0..=2 => expr(Node::Node(10, list(98, inner, 99))),
        3 => expr(Node::Node(6, list(96, inner, 97))),
        4 => expr(Node::Node(4, vec![token(93, "-"), inner])),
        5 => {
            let local = list(105, Node::Node(24, vec![inner]), 95);
            Node::Node(2, vec![Node::Node(22, local), g.leaf()])
        }
        6 => {
            let args = list(96, Node::Node(48, vec![inner]), 97);
            let apply = Node::Node(21, vec![Node::Node(47, args)]);
            Node::Node(2, vec![g.leaf(), apply])
        }
        _ => {
            let name = Node::Node(41, vec![token(73, "\"f\"")]);
            let field = Node::Node(30, vec![name, Node::Node(56, vec![usual(102)]), inner]);
            let mut body = list(100, field, 101);
            if sort == 7 {
                return expr(Node::Node(11, vec![Node::Node(27, body)]));
            }
            if sort == 9 {
                // One level more: the object in brackets is the lhs of another.
                let object = expr(Node::Node(11, vec![Node::Node(27, body)]));
                return Node::Node(2, vec![Node::Node(5, vec![object])]);
            }
            let at = body.len() - 1;
            body.insert(at, Node::Node(34, vec![Node::Node(2, vec![g.leaf()])]));
            expr(Node::Node(11, vec![Node::Node(26, body)]))
        }
    }
}

/// One list with as many children as fit into a random number of elements.
pub fn wide(rng: &mut Rng) -> Node {
    let mut g = grammar(rng);
    let mut room = 800 + g.rng.below(MAX_ELEMENTS - 800);
    let mut bytes = MAX_BYTES - 100;
    let sort = g.rng.below(9);
    let [open, close, slim] = [
        [98, 99, 2],
        [98, 99, 2],
        [100, 101, 28],
        [96, 97, 48],
        [105, 95, 24],
        [100, 101, 34],
        [98, 99, 32],
        [96, 97, 50],
        [100, 101, 55],
    ][sort];
    let slim_ones = g.rng.chance(50);
    let gaps = g.rng.chance(50);
    let mut list = vec![usual(open)];
    room -= 20;
    loop {
        let mut more = if slim_ones {
            vec![Node::Node(slim, vec![usual(107)])]
        } else {
            vec![item(&mut g, sort)]
        };
        if gaps {
            g.gap(&mut more);
        }
        if g.rng.chance(95) {
            more.push(usual(94));
        }
        let size: usize = more.iter().map(Node::size).sum();
        let length: usize = more.iter().map(Node::length).sum();
        if size > room || length > bytes {
            break;
        }
        room -= size;
        bytes -= length;
        list.extend(more);
    }
    list.push(usual(close));
    Node::Node(1, vec![Node::Node(2, whole(&mut g, sort, list))])
}

/// One child of the list.
fn item(g: &mut Grammar<'_>, sort: usize) -> Node {
    match sort {
        0 | 1 => Node::Node(2, vec![g.leaf()]),
        2 => g.member(0),
        3 => g.arg(0),
        4 => g.bind(0),
        5 | 6 => g.comp_spec(0),
        7 => Node::Node(50, vec![g.destruct(0)]),
        _ => Node::Node(55, vec![g.name()]),
    }
}

/// The children of an expression that holds the list.
fn whole(g: &mut Grammar<'_>, sort: usize, mut list: Vec<Node>) -> Vec<Node> {
    match sort {
        0 | 1 => vec![Node::Node(10, list)],
        2 => vec![Node::Node(11, vec![Node::Node(27, list)])],
        3 => vec![g.leaf(), Node::Node(21, vec![Node::Node(47, list)])],
        4 => vec![Node::Node(22, list), g.leaf()],
        5 => {
            let field = g.field(0);
            list.insert(1, field);
            vec![Node::Node(11, vec![Node::Node(26, list)])]
        }
        6 => {
            list.insert(1, Node::Node(2, vec![g.leaf()]));
            vec![Node::Node(12, list)]
        }
        7 => vec![Node::Node(16, vec![Node::Node(49, list)])],
        _ => {
            let bind = Node::Node(24, vec![Node::Node(38, list)]);
            vec![Node::Node(22, vec![usual(105), bind, usual(95)]), g.leaf()]
        }
    }
}

/// Adds trivia behind the expression until there are 4,096 elements, or 32,000
/// bytes, or both.
pub fn fill(rng: &mut Rng, elements: &mut Vec<Element>) {
    let bytes: usize = elements.iter().map(|e| e.text.len()).sum();
    let mut left = MAX_BYTES - bytes;
    // Which of the two is filled; both need a byte for each new element.
    let mut sort = rng.below(3);
    if left < MAX_ELEMENTS {
        sort = 1;
    }
    let mut add = |kind, text: String| {
        elements.push(Element {
            kind,
            level: 1,
            text,
        });
        elements.len()
    };
    if sort != 1 {
        while add(64, rng.pick(&[" ", "\n"]).to_owned()) < MAX_ELEMENTS - 1 {
            left -= 1;
        }
        left -= 1;
    }
    let mut text = String::from("/*");
    left = left.saturating_sub(4);
    if sort == 0 {
        left = left.min(rng.below(200));
    }
    // Long lines and short ones, to make few and many records.
    let short = rng.chance(50);
    while text.len() < left {
        let part = comments::soup(rng, if short { 3 } else { 40 });
        if text.len() + part.len() > left {
            break;
        }
        text.push_str(&part);
        text.push('\n');
    }
    while text.len() < left + 2 {
        text.push('x');
    }
    text.push_str("*/");
    add(65, text);
}

//! Trees with much around the statements, bases and suffixes of their Exprs: what
//! the two modes print differently, and what they do not.

use super::{
    comments,
    grammar::{self, Grammar, Style},
    node::{Node, usual},
    rng::Rng,
};

/// So many Exprs of a file are made anew at most.
const MOST: usize = 4;

/// A file of which the outermost Expr and a few of those in it are made anew.
pub fn file(rng: &mut Rng) -> Node {
    let mut root = grammar::file(rng, 0, Style::LIGHT);
    let mut left = 1 + rng.below(MOST);
    let mut first = true;
    root.each_node(&mut |kind, children| {
        if kind == 2 && left > 0 && (first || rng.chance(30)) {
            *children = expr(rng);
            left -= 1;
            first = false;
        }
    });
    root
}

/// The children of an Expr: statements, a base and suffixes, of each also none.
fn expr(rng: &mut Rng) -> Vec<Node> {
    let budget = rng.pick(&[0, 0, 8, 30]);
    let style = Style::LIGHT;
    let mut g = Grammar { rng, budget, style };
    let mut out = Vec::new();
    gap(&mut g, &mut out);
    for _ in 0..g.rng.below(4) {
        out.push(stmt(&mut g));
        gap(&mut g, &mut out);
    }
    if g.rng.chance(80) {
        out.push(g.base(3));
    }
    while g.rng.chance(25) {
        gap(&mut g, &mut out);
        out.push(g.suffix(3));
    }
    if g.rng.chance(20) {
        gap(&mut g, &mut out);
    }
    if g.rng.chance(8) {
        let place = g.rng.below(out.len() + 1);
        out.insert(place, grammar::part(g.rng));
    }
    out
}

/// A statement, in half of the cases one that prints little.
fn stmt(g: &mut Grammar<'_>) -> Node {
    match g.rng.below(4) {
        0 => Node::Node(22, vec![usual(105), usual(95)]),
        1 => Node::Node(23, vec![usual(95)]),
        _ => g.stmt(3),
    }
}

/// Trivia, custom errors, `,` and `;`, in any order.
fn gap(g: &mut Grammar<'_>, out: &mut Vec<Node>) {
    while g.rng.chance(60) {
        out.push(match g.rng.below(20) {
            0..=6 => comments::whitespace(g.rng),
            7..=15 => comments::comment(g.rng),
            16..=18 => comments::error(g.rng),
            _ => usual(g.rng.pick(&[94, 95])),
        });
    }
}

// The formatter in the keeping mode of document 02 (Ask 1), which is not the
// original's: the original lib.rs, in which the printer of an Expr has three lines
// more (insert.rs), with the original children.rs and comments.rs beside it.
#![allow(
    dead_code,
    unused_imports,
    unused_macros,
    unused_macro_rules,
    unused_parens
)]

include!(concat!(env!("OUT_DIR"), "/original/lib.rs"));

/// What an Expr prints in the keeping mode only.
#[derive(Clone, Copy)]
enum Kept {
    /// Each statement's before-trivia, above it.
    Before,
    /// Its inline trivia, after it at the end-of-items place.
    Inline,
    /// The trivia left before the base expression, at the same place before that
    /// base (or its missing text).
    Left,
}

fn keep(kept: Kept, trivia: &children::ChildTrivia, out: &mut PrintItems) {
    let location = match kept {
        Kept::Before => CommentLocation::AboveItem,
        Kept::Inline | Kept::Left => CommentLocation::EndOfItems,
    };
    let mut items = PrintItems::new();
    format_comments(trivia, location, &mut items);
    let mut counts = COUNTS.get();
    counts[kept as usize] += items.iter().count();
    COUNTS.set(counts);
    out.extend(items);
}

thread_local! {
    static COUNTS: std::cell::Cell<[usize; 3]> = const { std::cell::Cell::new([0; 3]) };
}

/// How many items were printed in this thread since the last call of this: of
/// before-trivia, of inline trivia and of trivia left before a base.
pub fn take_counts() -> [usize; 3] {
    COUNTS.take()
}

//! Counts for the coverage program. The build scripts put calls of these
//! functions into copies of the originals, and only with the feature `count`.

use std::{cell::RefCell, collections::BTreeMap};

/// A block, or the side of an `if` without `else` that has no block.
pub type Branch = (&'static str, u32, bool);
/// The type and the name of an accessor.
pub type Accessor = (&'static str, &'static str);

thread_local! {
    static BRANCHES: RefCell<BTreeMap<Branch, u64>> = const { RefCell::new(BTreeMap::new()) };
    static ACCESSORS: RefCell<BTreeMap<Accessor, [u64; 2]>> = const { RefCell::new(BTreeMap::new()) };
}

/// The block that opens in this line of a file was entered, or skipped.
pub fn hit(file: &'static str, line: u32, entered: bool) {
    BRANCHES.with_borrow_mut(|b| *b.entry((file, line, entered)).or_default() += 1);
}

/// Passes on what an accessor found.
pub fn found<T>(of: &'static str, name: &'static str, answer: Option<T>) -> Option<T> {
    count(of, name, answer.is_some());
    answer
}

/// Passes on the children that an accessor found.
pub fn some<I: Iterator + Clone>(of: &'static str, name: &'static str, answer: I) -> I {
    count(of, name, answer.clone().next().is_some());
    answer
}

fn count(of: &'static str, name: &'static str, found: bool) {
    ACCESSORS.with_borrow_mut(|a| a.entry((of, name)).or_default()[usize::from(!found)] += 1);
}

/// How often this branch was taken.
pub fn branch(of: Branch) -> u64 {
    BRANCHES.with_borrow(|b| b.get(&of).copied().unwrap_or_default())
}

/// How often this accessor found something, and how often nothing.
pub fn accessor(of: Accessor) -> [u64; 2] {
    ACCESSORS.with_borrow(|a| a.get(&of).copied().unwrap_or_default())
}

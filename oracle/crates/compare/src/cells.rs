//! Cells that are lent to a call of the library, and looked at behind it.

use std::fmt;

/// So many cells behind those that are lent are looked at too.
const BEHIND: usize = 8;

/// Cells of which the first are lent to a call. Between the comparisons all hold
/// the pattern.
pub struct Cells<T> {
    all: Vec<T>,
    pattern: T,
}

impl<T: Copy + PartialEq + fmt::Debug> Cells<T> {
    pub fn new(pattern: T) -> Self {
        let all = vec![];
        Self { all, pattern }
    }

    /// Where so many cells begin, to lend them.
    pub fn lend(&mut self, lent: usize) -> *mut T {
        let least = lent + BEHIND;
        if self.all.len() < least {
            self.all.resize(least, self.pattern);
        }
        self.all.as_mut_ptr()
    }

    /// The first cells of those that were lent, as the call left them: so many as it
    /// says that it has written, or `None` if it was lent fewer.
    pub fn written(&self, lent: usize, count: u64) -> Option<&[T]> {
        self.all[..lent].get(..usize::try_from(count).ok()?)
    }

    /// Whether a call that was lent so many has written these and no others. Puts
    /// the pattern back.
    pub fn compare(&mut self, lent: usize, wanted: &[T]) -> Result<(), String> {
        let pattern = self.pattern;
        let (written, rest) = self.all[..lent + BEHIND].split_at_mut(wanted.len());
        if written == wanted && rest.iter().all(|cell| *cell == pattern) {
            written.fill(pattern);
            return Ok(());
        }
        let wanted = |place| *wanted.get(place).unwrap_or(&pattern);
        let mut cells = self.all.iter().enumerate();
        let found = cells.find(|(place, cell)| **cell != wanted(*place));
        let (place, cell) = found.expect("a difference");
        let fault = format!("cell {place} is {cell:?}, and not {:?}", wanted(place));
        self.all.fill(pattern);
        Err(fault)
    }
}

#[cfg(test)]
mod tests {
    use super::*;

    #[test]
    fn every_cell_is_looked_at() {
        let (lent, wanted) = (4, b"abc");
        let mut cells = Cells::new(b'.');
        cells.lend(lent);
        assert_eq!(cells.compare(lent, b""), Ok(()));
        for place in 0..lent + BEHIND {
            cells.all[..wanted.len()].copy_from_slice(wanted);
            assert_eq!(cells.compare(lent, wanted), Ok(()));
            cells.all[..wanted.len()].copy_from_slice(wanted);
            cells.all[place] = b'x';
            let fault = cells.compare(lent, wanted).expect_err("a fault");
            assert!(
                fault.starts_with(&format!("cell {place} is 120,")),
                "{fault}"
            );
            assert_eq!(cells.compare(lent, b""), Ok(()), "the pattern is back");
        }
    }

    #[test]
    fn no_more_cells_than_were_lent() {
        let mut cells = Cells::new(b'.');
        cells.lend(2);
        assert_eq!(cells.written(2, 0), Some(&b""[..]));
        assert_eq!(cells.written(2, 2), Some(&b".."[..]));
        assert_eq!(cells.written(2, 3), None);
        assert_eq!(cells.written(2, u64::MAX), None);
    }
}

//! What a comparison found.

use std::fmt;

/// Of the inputs that differ, the smallest with what differs.
pub struct Report {
    name: String,
    compared: u64,
    differing: u64,
    smallest: Option<Difference>,
}

struct Difference {
    /// The length of the input, and among equally long ones its number.
    rank: (usize, usize),
    shown: String,
}

impl Report {
    pub fn new(name: impl Into<String>) -> Self {
        Self {
            name: name.into(),
            compared: 0,
            differing: 0,
            smallest: None,
        }
    }

    pub fn same(&mut self) {
        self.compared += 1;
    }

    /// The input of this length and number differs; `show` describes it.
    pub fn differs(&mut self, length: usize, number: usize, show: impl FnOnce() -> String) {
        self.compared += 1;
        self.differing += 1;
        let rank = (length, number);
        if self.smallest.as_ref().is_none_or(|d| rank < d.rank) {
            let shown = show();
            self.smallest = Some(Difference { rank, shown });
        }
    }

    /// Adds what another thread found. The sum does not depend on which inputs
    /// were whose.
    pub fn add(&mut self, other: Self) {
        self.compared += other.compared;
        self.differing += other.differing;
        let both = [self.smallest.take(), other.smallest];
        self.smallest = both.into_iter().flatten().min_by_key(|d| d.rank);
    }

    pub fn is_clean(&self) -> bool {
        self.compared > 0 && self.differing == 0
    }
}

impl fmt::Display for Report {
    fn fmt(&self, f: &mut fmt::Formatter<'_>) -> fmt::Result {
        writeln!(
            f,
            "{}: {} compared, {} differ",
            self.name, self.compared, self.differing
        )?;
        if let Some(Difference { shown, .. }) = &self.smallest {
            writeln!(f, "the smallest that differs: {shown}")?;
        }
        Ok(())
    }
}

#[cfg(test)]
mod tests {
    use super::*;

    #[test]
    fn the_smallest_is_kept() {
        let mut report = Report::new("texts");
        assert!(!report.is_clean(), "nothing was compared");
        report.same();
        assert!(report.is_clean());
        for (number, text) in ["long", "ab", "cd", "abc"].into_iter().enumerate() {
            report.differs(text.len(), number, || text.to_owned());
        }
        assert!(!report.is_clean());
        let expected = "texts: 5 compared, 4 differ\nthe smallest that differs: ab\n";
        assert_eq!(report.to_string(), expected);
    }

    #[test]
    fn a_sum_is_the_same_in_every_order() {
        let texts = ["long", "ab", "cd", "abc"];
        for first in 0..texts.len() {
            let mut sum = Report::new("texts");
            for turn in 0..texts.len() {
                let number = (first + turn) % texts.len();
                let mut report = Report::new("texts");
                report.differs(texts[number].len(), number, || texts[number].to_owned());
                sum.add(report);
            }
            let expected = "texts: 4 compared, 4 differ\nthe smallest that differs: ab\n";
            assert_eq!(sum.to_string(), expected);
        }
    }
}

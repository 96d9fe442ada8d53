//! The images of a run, by number.

use oracle::{
    describe,
    generate::{Family, Options, edges, generate},
    image,
};

/// So many images of a seed, as many of the next seed of which half are damaged,
/// half as many full of comments around statements, half as many with texts that the
/// listing escapes, those at the limits, and a few whose plans fill the library's
/// first array.
pub struct Inputs {
    seed: u64,
    count: usize,
    at_limits: Vec<Vec<u8>>,
}

impl Inputs {
    pub fn new(seed: u64, count: usize) -> Self {
        Self {
            seed,
            count,
            at_limits: [edges::edges(), edges::kept_edges()]
                .concat()
                .into_iter()
                .map(|(_, bytes)| bytes)
                .chain(edges::dense_images())
                .collect(),
        }
    }

    pub fn len(&self) -> usize {
        self.generated() + self.at_limits.len()
    }

    /// How many of them, from the first, were generated.
    fn generated(&self) -> usize {
        2 * self.count + 2 * (self.count / 2)
    }

    /// How many of them, from the first, are images of all families as they were
    /// generated.
    pub fn undamaged(&self) -> usize {
        self.count
    }

    pub fn image(&self, number: usize) -> Vec<u8> {
        if let Some(edge) = number.checked_sub(self.generated()) {
            return self.at_limits[edge].clone();
        }
        let (all, half) = (self.count, self.count / 2);
        // Which of the four, and the number of its first image.
        let (damaged, only, first) = if number < all {
            (false, None, 0)
        } else if number < 2 * all {
            (true, None, all)
        } else if number < 2 * all + half {
            (false, Some(Family::Statements), 2 * all)
        } else {
            (false, Some(Family::Texts), 2 * all + half)
        };
        let options = Options {
            damaged,
            only,
            ..Options::default()
        };
        let seed = self.seed + u64::from(damaged);
        generate(seed, (number - first) as u64, options).image
    }
}

/// An image as text, or its bytes where it is no tree.
pub fn shown(bytes: &[u8]) -> String {
    image::read(bytes).map_or_else(
        |_| format!("the bytes {bytes:?}"),
        |elements| describe::write(&elements),
    )
}

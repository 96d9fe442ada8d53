//! Comments and custom errors, in each of the three places.

use oracle::{image, print};

use crate::{
    inputs::Inputs,
    library::{Buffers, Room},
    report::Report,
    threads::share,
};

const MULTI_LINE: u16 = 65;

/// What a thread has compared.
struct Comments {
    buffers: Buffers,
    report: Report,
}

impl Comments {
    fn new(name: &'static str) -> Self {
        Self {
            buffers: Buffers::default(),
            report: Report::new(name),
        }
    }
}

impl Default for Comments {
    fn default() -> Self {
        Self::new("comments and errors of the images, in three places")
    }
}

/// Every trivia and error of the images that are not damaged.
pub fn of_images(inputs: &Inputs) -> Report {
    let parts = share(inputs.undamaged(), |comments: &mut Comments, number| {
        for element in image::read(&inputs.image(number)).expect("a valid image") {
            if (64..=72).contains(&element.kind) {
                comments.three_places(number, element.kind, &element.text);
            }
        }
    });
    let mut sum = Comments::default().report;
    for part in parts {
        sum.add(part.report);
    }
    sum
}

/// All multi-line comments, unterminated comments and errors with up to six
/// bytes inside, of those that matter.
pub fn exhaustive() -> Report {
    let name = "comments and errors of up to six bytes inside, in three places";
    let mut comments = Comments::new(name);
    let alphabet = [b'a', b' ', b'\t', b'\n', b'*', b'\r'];
    for length in 0..=6u32 {
        for number in 0..alphabet.len().pow(length) {
            let mut left = number;
            let inside: String = (0..length)
                .map(|_| {
                    let byte = alphabet[left % alphabet.len()];
                    left /= alphabet.len();
                    byte as char
                })
                .collect();
            let mut compare = |kind, text: &str| comments.three_places(number, kind, text);
            compare(MULTI_LINE, &format!("/*{inside}*/"));
            if length < 5 {
                compare(67, &inside);
                compare(68, &format!("#{inside}"));
                compare(69, &format!("//{inside}"));
                compare(70, &inside);
            }
        }
    }
    comments.report
}

impl Comments {
    fn three_places(&mut self, number: usize, kind: u16, text: &str) {
        // Room for more than any comment gives.
        let bytes = 4 * text.len() + 16;
        let room = Room {
            words: 3 * bytes,
            bytes,
            listing: 0,
        };
        for place in 0..3 {
            let original = print::comment(kind, text, place);
            match self.buffers.comment((kind, text, place), room, &original) {
                Ok(()) => self.report.same(),
                Err(fault) => self.report.differs(text.len(), number, || {
                    format!("kind {kind}, place {place}, {text:?}: {fault}")
                }),
            }
        }
    }
}

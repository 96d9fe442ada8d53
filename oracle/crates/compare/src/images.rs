//! Whole images in both modes: refusals 1 to 12, the records with their four
//! counts, and every cell of the lent buffers.

use std::time::{Duration, Instant};

use oracle::{
    image::{self, Element, Fault},
    limits,
    print::{Mode, Printed, kept, print},
    records::Records,
};

use crate::{
    inputs::{Inputs, shown},
    library::{self, Answer, Buffers, Room},
    report::Report,
    threads,
};

/// What a thread has compared.
pub struct Images {
    buffers: Buffers,
    pub tests: Report,
    /// The oracle against itself.
    pub refusals: Report,
    /// Of each mode.
    pub answers: [Report; 2],
    /// Images by refusal 1 to 9, 0 for none.
    pub by_refusal: [u64; 10],
    /// Calls of each mode by answer: printed, then refusals 1 to 12.
    pub by_answer: [[u64; 13]; 2],
    /// Images in which the keeping mode prints more: in any place, above a statement,
    /// after one, and before a base.
    pub keeping: [u64; 4],
}

impl Default for Images {
    fn default() -> Self {
        Self {
            buffers: Buffers::default(),
            tests: Report::new("refusals 1 to 9"),
            refusals: Report::new("refusals 1 to 10 of the oracle in both modes"),
            answers: Mode::BOTH.map(|mode| {
                Report::new(format!(
                    "{} mode: images where the room suffices or is short, refusals 1 to 12 and records",
                    mode.name()
                ))
            }),
            by_refusal: [0; 10],
            by_answer: [[0; 13]; 2],
            keeping: [0; 4],
        }
    }
}

/// The elements of an image, or which of the refusals 1 to 9 turns it away. The
/// original has none of them: this is the oracle's own reading of document 01.
pub fn tested(bytes: &[u8]) -> Result<Vec<Element>, Fault> {
    let elements = image::read(bytes)?;
    limits::texts(&elements).map_or(Ok(elements), Err)
}

/// The records of an image by the oracle, or the number of the refusal and its
/// element.
pub fn printed(
    elements: &Result<Vec<Element>, Fault>,
    mode: Mode,
) -> Result<Records, (u32, usize)> {
    match elements.as_ref().map(|elements| print(elements, mode)) {
        Ok(Printed::Items(records)) => Ok(records),
        Ok(Printed::Panicked { element, .. }) => Err((10, element)),
        Err(fault) => Err((fault.number, fault.element)),
    }
}

/// A few cells more than are written.
pub const MORE: usize = 5;

/// Words and bytes that suffice: just, or with a few cells more, in turn.
pub fn enough(number: usize, records: &Records) -> Room {
    let used = Room::of(records);
    let more = MORE * (number % 2);
    Room {
        words: used.words + more,
        bytes: used.bytes + more,
        listing: 0,
    }
}

/// For every second image one byte less, one word less or both, in turn, with the
/// refusal there. Where both are short, the records count.
fn short(number: usize, records: &Records) -> Option<(Room, u32)> {
    let used = Room::of(records);
    let (fewer_words, fewer_bytes, refusal) = match number % 6 {
        0 if used.bytes > 0 => (0, 1, 12),
        2 if used.bytes > 0 => (1, 1, 11),
        0 | 2 | 4 => (1, 0, 11),
        _ => return None,
    };
    let room = Room {
        words: used.words - fewer_words,
        bytes: used.bytes - fewer_bytes,
        listing: 0,
    };
    Some((room, refusal))
}

impl Images {
    /// Compares one image: its tests, and in each mode the call where the room
    /// suffices, and one where it does not.
    pub fn compare(&mut self, number: usize, bytes: &[u8]) {
        let elements = tested(bytes);
        self.test(number, bytes, &elements);
        let both = Mode::BOTH.map(|mode| printed(&elements, mode));
        self.same_refusal(number, bytes, &both);
        for (mode, printed) in Mode::BOTH.into_iter().zip(both) {
            match printed {
                Ok(records) => {
                    let room = enough(number, &records);
                    self.call(number, bytes, mode, room, Answer::Printed(&records));
                    if let Some((room, refusal)) = short(number, &records) {
                        self.call(number, bytes, mode, room, Answer::Refused(refusal, 0));
                    }
                }
                Err((refusal, element)) => {
                    // What is refused leaves the room as it is.
                    let room = enough(number, &Records::default());
                    self.call(number, bytes, mode, room, Answer::Refused(refusal, element));
                }
            }
        }
    }

    /// Whether the oracle refuses an image in both modes by the same number and
    /// element, or in neither; counts what the keeping mode, printed last, adds.
    fn same_refusal(
        &mut self,
        number: usize,
        bytes: &[u8],
        both: &[Result<Records, (u32, usize)>; 2],
    ) {
        let [plain, keeping] = both.each_ref().map(|printed| printed.as_ref().err());
        if plain == keeping {
            self.refusals.same();
        } else {
            self.refusals.differs(bytes.len(), number, || {
                format!("{plain:?} and {keeping:?}, for\n{}", shown(bytes))
            });
        }
        if keeping.is_none() {
            let [above, after, before] = kept().map(|items| items > 0);
            let met = [above || after || before, above, after, before];
            add(&mut self.keeping, &met.map(u64::from));
        }
    }

    fn test(&mut self, number: usize, bytes: &[u8], elements: &Result<Vec<Element>, Fault>) {
        let length = |all: &[Element]| all.iter().map(|e| e.text.len()).sum();
        let wanted = match elements {
            Ok(elements) => [0, elements.len(), length(elements)],
            Err(fault) => [fault.number as usize, fault.element, 0],
        };
        self.by_refusal[wanted[0]] += 1;
        let ours = library::refusal(bytes).map(|n| n as usize);
        if ours == wanted {
            self.tests.same();
            return;
        }
        self.tests.differs(bytes.len(), number, || {
            format!("{ours:?}, and not {wanted:?}, for\n{}", shown(bytes))
        });
    }

    fn call(&mut self, number: usize, bytes: &[u8], mode: Mode, room: Room, wanted: Answer) {
        self.by_answer[mode as usize][match wanted {
            Answer::Printed(_) => 0,
            Answer::Refused(number, _) => number as usize,
        }] += 1;
        let report = &mut self.answers[mode as usize];
        match self.buffers.print(bytes, mode, room, wanted) {
            Ok(()) => report.same(),
            Err(fault) => report.differs(bytes.len(), number, || {
                format!("in {room:?}: {fault}, for\n{}", shown(bytes))
            }),
        }
    }

    /// Adds what another thread compared.
    pub fn add(&mut self, other: Self) {
        self.tests.add(other.tests);
        self.refusals.add(other.refusals);
        for (sum, more) in self.answers.iter_mut().zip(other.answers) {
            sum.add(more);
        }
        add(&mut self.by_refusal, &other.by_refusal);
        let sum = self.by_answer.as_flattened_mut();
        add(sum, other.by_answer.as_flattened());
        add(&mut self.keeping, &other.keeping);
    }
}

/// Adds counts to counts.
pub fn add(sum: &mut [u64], more: &[u64]) {
    for (n, m) in sum.iter_mut().zip(more) {
        *n += m;
    }
}

/// So many images are made before they are compared.
const ROUND: usize = 10_000;

/// Compares all images of a run and shows how fast: in the time are the original's
/// printing and all comparisons. The making of the images is timed by itself.
pub fn compare(inputs: &Inputs, seed: u64) -> Images {
    let (mut making, mut comparing) = (Duration::ZERO, Duration::ZERO);
    let mut sum = Images::default();
    for first in (0..inputs.len()).step_by(ROUND) {
        let start = Instant::now();
        let count = ROUND.min(inputs.len() - first);
        let parts = threads::share(count, |made: &mut Vec<_>, n| {
            made.push((first + n, inputs.image(first + n)));
        });
        let made: Vec<(usize, Vec<u8>)> = parts.into_iter().flatten().collect();
        making += start.elapsed();
        let start = Instant::now();
        let parts = threads::share(count, |images: &mut Images, n| {
            let (number, bytes) = &made[n];
            images.compare(*number, bytes);
        });
        comparing += start.elapsed();
        parts.into_iter().for_each(|part| sum.add(part));
    }
    let calls: u64 = sum.by_answer.as_flattened().iter().sum();
    let rate = |count: usize, time: Duration| count as f64 / time.as_secs_f64();
    println!(
        "seed {seed}: {} images, {calls} calls in both modes; on {} threads, with the oracle's \
         printing, {:.0} images and {:.0} calls a second; with the making of the images {:.0} images",
        inputs.len(),
        threads::cores(),
        rate(inputs.len(), comparing),
        rate(calls as usize, comparing),
        rate(inputs.len(), making + comparing),
    );
    println!("images by refusal, from none to 9: {:?}", sum.by_refusal);
    for (mode, by_answer) in Mode::BOTH.into_iter().zip(sum.by_answer) {
        println!(
            "{} mode: calls by answer, printed and then refusals 1 to 12: {by_answer:?}",
            mode.name()
        );
    }
    println!(
        "keeping mode: images with more items, above a statement, after one, before a base: {:?}",
        sum.keeping
    );
    sum
}

//! Listings in both modes, by the call that writes the records too: refusals 1 to
//! 13, the five counts, and every cell of the three buffers. Each listing that is
//! given is read back.

use std::time::Instant;

use oracle::{print::Mode, records::Records};

use crate::{
    images::{MORE, add, enough, printed, tested},
    inputs::{Inputs, shown},
    library::{Answer, Buffers, Room},
    report::Report,
    threads,
};

/// What a thread has compared.
struct Listings {
    buffers: Buffers,
    /// Of each mode.
    reports: [Report; 2],
    /// Of each mode, the library against itself.
    read_back: [Report; 2],
    /// Calls of each mode by answer: listed, then refusals 1 to 13.
    by_answer: [[u64; 14]; 2],
}

impl Default for Listings {
    fn default() -> Self {
        Self {
            buffers: Buffers::default(),
            reports: Mode::BOTH.map(|mode| {
                Report::new(format!(
                    "{} mode: listings where the room suffices or is short, refusals 1 to 13",
                    mode.name()
                ))
            }),
            read_back: Mode::BOTH.map(|mode| {
                Report::new(format!(
                    "{} mode: listings read back, against the records and texts of the same call",
                    mode.name()
                ))
            }),
            by_answer: [[0; 14]; 2],
        }
    }
}

/// For every second image one byte of the listing less: by itself, with one word
/// of the records less, or with one byte of the texts less, in turn. With the
/// refusal there: the listing counts last.
fn short(number: usize, records: &Records, listing: &[u8]) -> Option<(Room, u32)> {
    let used = Room::of(records);
    let (fewer_words, fewer_bytes, refusal) = match number % 6 {
        0 if used.bytes > 0 => (0, 1, 12),
        2 => (1, 0, 11),
        0 | 4 => (0, 0, 13),
        _ => return None,
    };
    let room = Room {
        words: used.words - fewer_words,
        bytes: used.bytes - fewer_bytes,
        listing: listing.len() - 1,
    };
    Some((room, refusal))
}

impl Listings {
    /// Compares one image in both modes.
    fn compare(&mut self, number: usize, bytes: &[u8]) {
        let elements = tested(bytes);
        for mode in Mode::BOTH {
            self.compare_in(mode, number, bytes, printed(&elements, mode));
        }
    }

    /// Where the room suffices, and perhaps where it does not.
    fn compare_in(
        &mut self,
        mode: Mode,
        number: usize,
        bytes: &[u8],
        records: Result<Records, (u32, usize)>,
    ) {
        let listing = records.as_ref().map_or(vec![], Records::listing);
        let room = |records: &Records| Room {
            listing: listing.len() + MORE * (number % 2),
            ..enough(number, records)
        };
        match &records {
            Ok(records) => {
                let wanted = Answer::Printed(records);
                self.call((number, mode), bytes, room(records), wanted, &listing);
                if let Some((room, refusal)) = short(number, records, &listing) {
                    let wanted = Answer::Refused(refusal, 0);
                    self.call((number, mode), bytes, room, wanted, &[]);
                }
            }
            Err((refusal, element)) => {
                let wanted = Answer::Refused(*refusal, *element);
                let room = room(&Records::default());
                self.call((number, mode), bytes, room, wanted, &[]);
            }
        }
    }

    fn call(
        &mut self,
        (number, mode): (usize, Mode),
        bytes: &[u8],
        room: Room,
        wanted: Answer,
        listing: &[u8],
    ) {
        self.by_answer[mode as usize][match wanted {
            Answer::Printed(_) => 0,
            Answer::Refused(number, _) => number as usize,
        }] += 1;
        let listed = self.buffers.list(bytes, mode, room, wanted, listing);
        let note = |report: &mut Report, result| match result {
            Ok(()) => report.same(),
            Err(fault) => report.differs(bytes.len(), number, || {
                format!("in {room:?}: {fault}, for\n{}", shown(bytes))
            }),
        };
        note(&mut self.reports[mode as usize], listed.answer);
        if let Some(result) = listed.read_back {
            note(&mut self.read_back[mode as usize], result);
        }
    }
}

/// Compares the listings of all images of a run and shows how fast. In the time
/// are the making of the images, the oracle's printing and its listings, and the
/// reading back.
pub fn compare(inputs: &Inputs) -> impl Iterator<Item = Report> {
    let start = Instant::now();
    let parts = threads::share(inputs.len(), |listings: &mut Listings, number| {
        listings.compare(number, &inputs.image(number));
    });
    let rate = inputs.len() as f64 / start.elapsed().as_secs_f64();
    let mut sum = Listings::default();
    for part in parts {
        for (sum, more) in sum.reports.iter_mut().zip(part.reports) {
            sum.add(more);
        }
        for (sum, more) in sum.read_back.iter_mut().zip(part.read_back) {
            sum.add(more);
        }
        let sum = sum.by_answer.as_flattened_mut();
        add(sum, part.by_answer.as_flattened());
    }
    for (mode, by_answer) in Mode::BOTH.into_iter().zip(sum.by_answer) {
        println!(
            "{} mode: listings by answer, listed and then refusals 1 to 13: {by_answer:?}",
            mode.name()
        );
    }
    println!("listings of both modes: {rate:.0} images a second");
    sum.reports.into_iter().chain(sum.read_back)
}

//! Safe calls of the library's exported functions. A slice is passed as its
//! pointer and its length, an array as its pointer.

use std::fmt;

use oracle::{print::Mode, records::Records, unlisted::unlisted};

use crate::cells::Cells;

unsafe extern "C" {
    fn tungvesk_comment(
        kind: u32,
        place: u32,
        text: *const u8,
        text_len: usize,
        records: *mut u32,
        records_len: usize,
        texts: *mut u8,
        texts_len: usize,
        counts: &mut [u32; 4],
    ) -> u32;
    fn tungvesk_refusal(image: *const u8, image_len: usize, values: &mut [u32; 2]) -> u32;
    fn tungvesk_print(
        image: *const u8,
        image_len: usize,
        mode: u32,
        records: *mut u32,
        records_len: usize,
        texts: *mut u8,
        texts_len: usize,
        values: &mut [u64; 5],
    ) -> u32;
    fn tungvesk_list(
        image: *const u8,
        image_len: usize,
        mode: u32,
        records: *mut u32,
        records_len: usize,
        texts: *mut u8,
        texts_len: usize,
        listing: *mut u8,
        listing_len: usize,
        values: &mut [u64; 6],
    ) -> u32;
}

/// The number of a refusal, its element and 0, or 0 with N and B.
pub fn refusal(image: &[u8]) -> [u32; 3] {
    let mut values = [FILL; 2];
    // The pointer and the length are those of a slice that lives until the call
    // ends.
    let number = unsafe { tungvesk_refusal(image.as_ptr(), image.len(), &mut values) };
    [number, values[0], values[1]]
}

/// The number of a mode.
pub fn number(mode: Mode) -> u32 {
    match mode {
        Mode::Plain => 0,
        Mode::Keeping => 1,
    }
}

/// What a call answers to a number that is no mode.
const NO_MODE: u32 = 254;

/// What a call is to answer to an image: its records, or the number of a refusal
/// and its element.
#[derive(Clone, Copy)]
pub enum Answer<'r> {
    Printed(&'r Records),
    Refused(u32, usize),
}

/// What is left alone.
const NOTHING: Answer<'static> = Answer::Refused(0, 0);

impl Answer<'_> {
    /// The number and the five values of the call.
    fn values(self) -> (u32, [u64; 5]) {
        match self {
            Answer::Printed(records) => {
                let [a, b, c, d] = records.counts().map(|n| n as u64);
                (0, [a, b, c, d, 0])
            }
            Answer::Refused(number, element) => (number, [0, 0, 0, 0, element as u64]),
        }
    }
}

/// What the buffers hold before a call.
const FILL: u32 = 0xa5a5_a5a5;
const BYTE: u8 = FILL as u8;

/// How much is lent to a call.
#[derive(Debug, Clone, Copy)]
pub struct Room {
    pub words: usize,
    pub bytes: usize,
    /// Only for the call that writes the listing.
    pub listing: usize,
}

impl Room {
    /// What these records take.
    pub fn of(records: &Records) -> Self {
        Self {
            words: records.records.as_flattened().len(),
            bytes: records.texts.len(),
            listing: 0,
        }
    }

    /// What an image of so many elements and bytes of text takes at most: a call in
    /// this room counts nothing first.
    pub fn ample(elements: usize, bytes: usize) -> Self {
        let records = 24 * elements + 4 * bytes;
        Self {
            words: 3 * records,
            bytes: 39 * records,
            listing: 0,
        }
    }
}

/// What a call that writes the listing too has done.
pub struct Listed {
    /// Whether its answer and every cell are the oracle's.
    pub answer: Result<(), String>,
    /// Where it has accepted the image: whether its listing, read back, gives the
    /// records and the texts that it has written beside it.
    pub read_back: Option<Result<(), String>>,
}

/// The buffers of the calls.
pub struct Buffers {
    records: Cells<u32>,
    texts: Cells<u8>,
    listing: Cells<u8>,
}

impl Default for Buffers {
    fn default() -> Self {
        Self {
            records: Cells::new(FILL),
            texts: Cells::new(BYTE),
            listing: Cells::new(BYTE),
        }
    }
}

impl Buffers {
    /// Whether a call in this room has written the records that it is to give, and
    /// nothing else.
    fn compare(&mut self, room: Room, wanted: Answer) -> Result<(), String> {
        let (words, bytes): (&[u32], &[u8]) = match wanted {
            Answer::Printed(records) => (records.records.as_flattened(), &records.texts),
            Answer::Refused(..) => (&[], &[]),
        };
        let records = self.records.compare(room.words, words);
        let texts = self.texts.compare(room.bytes, bytes);
        records.map_err(|fault| format!("records: {fault}"))?;
        texts.map_err(|fault| format!("texts: {fault}"))
    }

    /// Compares the records of one trivia or custom error in one of the three
    /// places.
    pub fn comment(
        &mut self,
        (kind, text, place): (u16, &str, u32),
        room: Room,
        wanted: &Records,
    ) -> Result<(), String> {
        let mut counts = [FILL; 4];
        // The pointers and lengths are those of slices, and of cells that are
        // lent, which live until the call ends; no two of them overlap.
        let number = unsafe {
            tungvesk_comment(
                u32::from(kind),
                place,
                text.as_ptr(),
                text.len(),
                self.records.lend(room.words),
                room.words,
                self.texts.lend(room.bytes),
                room.bytes,
                &mut counts,
            )
        };
        let cells = self.compare(room, Answer::Printed(wanted));
        same((number, counts), (0, wanted.counts().map(|n| n as u32)))?;
        cells
    }

    /// The call by itself: the number and the five values.
    pub fn call(&mut self, image: &[u8], mode: u32, room: Room) -> (u32, [u64; 5]) {
        let mut values = [u64::from(FILL); 5];
        // The pointers and lengths are those of slices, and of cells that are
        // lent, which live until the call ends; no two of them overlap.
        let number = unsafe {
            tungvesk_print(
                image.as_ptr(),
                image.len(),
                mode,
                self.records.lend(room.words),
                room.words,
                self.texts.lend(room.bytes),
                room.bytes,
                &mut values,
            )
        };
        (number, values)
    }

    /// The call that writes the listing too: the number and the six values.
    fn call_list(&mut self, image: &[u8], mode: u32, room: Room) -> (u32, [u64; 6]) {
        let mut values = [u64::from(FILL); 6];
        // The pointers and lengths are those of slices, and of cells that are
        // lent, which live until the call ends; no two of them overlap.
        let number = unsafe {
            tungvesk_list(
                image.as_ptr(),
                image.len(),
                mode,
                self.records.lend(room.words),
                room.words,
                self.texts.lend(room.bytes),
                room.bytes,
                self.listing.lend(room.listing),
                room.listing,
                &mut values,
            )
        };
        (number, values)
    }

    /// Compares the answer to an image, and every cell.
    pub fn print(
        &mut self,
        image: &[u8],
        mode: Mode,
        room: Room,
        wanted: Answer,
    ) -> Result<(), String> {
        let ours = self.call(image, number(mode), room);
        let cells = self.compare(room, wanted);
        same(ours, wanted.values())?;
        cells
    }

    /// Reads the listing of a call with these values back. Nothing of the oracle's
    /// answer is needed for it.
    fn read_back(&self, room: Room, values: [u64; 6]) -> Result<(), String> {
        let [records, bytes, _, _, length, _] = values;
        let words = self.records.written(room.words, records.saturating_mul(3));
        let texts = self.texts.written(room.bytes, bytes);
        let listing = self.listing.written(room.listing, length);
        let (Some(words), Some(texts), Some(listing)) = (words, texts, listing) else {
            return Err(format!("{values:?} are more than was lent"));
        };
        let back = unlisted(listing)?;
        if back.records.as_flattened() != words {
            let fault = "the records read back are not those that were written";
            return Err(fault.to_owned());
        }
        if back.texts != texts {
            let fault = "the texts read back are not those that were written";
            return Err(fault.to_owned());
        }
        Ok(())
    }

    /// Compares the answer of the call that writes the listing too, and every cell,
    /// and reads its listing back. Where it is refused the listing is empty.
    pub fn list(
        &mut self,
        image: &[u8],
        mode: Mode,
        room: Room,
        wanted: Answer,
        listing: &[u8],
    ) -> Listed {
        let ours = self.call_list(image, number(mode), room);
        // Before the pattern is put back.
        let read_back = (ours.0 == 0).then(|| self.read_back(room, ours.1));
        let cells = self.compare(room, wanted);
        let lines = self.listing.compare(room.listing, listing);
        let lines = lines.map_err(|fault| format!("listing: {fault}"));
        let (expected, [a, b, c, d, element]) = wanted.values();
        let length = listing.len() as u64;
        let values = same(ours, (expected, [a, b, c, d, length, element]));
        Listed {
            answer: values.and(cells).and(lines),
            read_back,
        }
    }

    /// Compares what both calls do with a number that is no mode: nothing, but for
    /// their answer.
    pub fn other_mode(&mut self, image: &[u8], mode: u32, room: Room) -> Result<(), String> {
        let printed = self.call(image, mode, room);
        let cells = self.compare(room, NOTHING);
        same(printed, (NO_MODE, [u64::from(FILL); 5]))?;
        cells?;
        let listed = self.call_list(image, mode, room);
        let cells = self.compare(room, NOTHING);
        let lines = self.listing.compare(room.listing, &[]);
        same(listed, (NO_MODE, [u64::from(FILL); 6]))?;
        cells?;
        lines.map_err(|fault| format!("listing: {fault}"))
    }
}

/// Whether a call has answered with this number and these values.
fn same<V: PartialEq + fmt::Debug>(ours: (u32, V), wanted: (u32, V)) -> Result<(), String> {
    if ours == wanted {
        return Ok(());
    }
    let ((number, values), (expected, counts)) = (ours, wanted);
    Err(format!(
        "{number} with {values:?}, and not {expected} with {counts:?}"
    ))
}

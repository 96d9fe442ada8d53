//! Numbers that are no mode, for images of a run.

use crate::{
    inputs::{Inputs, shown},
    library::{Buffers, Room},
    report::Report,
};

const OTHERS: [u32; 6] = [2, 3, 255, 256, 1 << 31, u32::MAX];

/// Every so many images one is taken.
const STEP: usize = 101;

/// No room, some, and more than most images take.
const ROOMS: [usize; 3] = [0, 7, 50_000];

/// Whatever the image and the room are, such a number is answered by itself.
pub fn compare(inputs: &Inputs) -> Report {
    let mut report = Report::new("calls with 2, 3, 255, 256, 2^31 and 2^32-1, which are no mode");
    let mut buffers = Buffers::default();
    for number in (0..inputs.len()).step_by(STEP) {
        let bytes = inputs.image(number);
        let cells = ROOMS[number % ROOMS.len()];
        let room = Room {
            words: cells,
            bytes: cells,
            listing: cells,
        };
        for mode in OTHERS {
            match buffers.other_mode(&bytes, mode, room) {
                Ok(()) => report.same(),
                Err(fault) => report.differs(bytes.len(), number, || {
                    format!("mode {mode} in {room:?}: {fault}, for\n{}", shown(&bytes))
                }),
            }
        }
    }
    report
}

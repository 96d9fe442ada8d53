//! How long printing takes, as ratios: on images of 4,096 elements, on a mix of
//! generated images and on small ones. The library is timed from the image to the
//! records in the lent buffers, so with all tests, once with just enough room and
//! once with room for all that an image may print; the original from a tree that
//! stands to its items. All in the plain mode.

use std::time::{Duration, Instant};

use oracle::{
    DEFAULT_SEED,
    generate::{Family, MAX_BYTES, MAX_ELEMENTS, Options, Sample, generate, large::large},
    image,
    print::{self, Mode, Printed},
};

use crate::library::{self, Answer, Buffers, Room};

/// An odd number, so that there is a median.
const ROUNDS: usize = 301;

/// How many generated images are timed together.
const MIX: usize = 600;

/// A small tree has fewer elements.
const SMALL: usize = 16;

struct Image {
    bytes: Vec<u8>,
    records: usize,
    exact: Room,
    ample: Room,
}

impl Image {
    /// Compares what the library prints in both rooms.
    fn new(name: &str, bytes: Vec<u8>, buffers: &mut Buffers) -> Self {
        let elements = image::read(&bytes).expect("a valid image");
        let Printed::Items(wanted) = print::print(&elements, Mode::Plain) else {
            panic!("{name}: the original stops");
        };
        let exact = Room::of(&wanted);
        let ample = Room::ample(elements.len(), bytes.len() - 8 - 8 * elements.len());
        for room in [exact, ample] {
            let compared = buffers.print(&bytes, Mode::Plain, room, Answer::Printed(&wanted));
            assert_eq!(compared, Ok(()), "{name}");
        }
        let records = wanted.records.len();
        Self {
            bytes,
            records,
            exact,
            ample,
        }
    }
}

/// Times of a call, or of one for each of several images, a round each.
#[derive(Default)]
struct Times(Vec<Duration>);

impl Times {
    fn push(&mut self, times: impl Iterator<Item = Duration>) {
        self.0.push(times.sum());
    }

    fn median(&mut self) -> f64 {
        self.0.sort();
        self.0[self.0.len() / 2].as_secs_f64()
    }
}

/// Images that are timed together, with their times.
struct Row {
    name: &'static str,
    images: Vec<Image>,
    buffers: Buffers,
    exact: Times,
    ample: Times,
    /// Of both, the tests 1 to 9: timed by themselves.
    tests: Times,
    original: Times,
}

impl Row {
    fn new(name: &'static str, images: impl Iterator<Item = Vec<u8>>) -> Self {
        let mut buffers = Buffers::default();
        Self {
            name,
            images: images
                .map(|bytes| Image::new(name, bytes, &mut buffers))
                .collect(),
            buffers,
            exact: Times::default(),
            ample: Times::default(),
            tests: Times::default(),
            original: Times::default(),
        }
    }

    /// One call of each sort for each image.
    fn round(&mut self) {
        let buffers = &mut self.buffers;
        let mut call = |image: &Image, room| {
            let start = Instant::now();
            let (number, _) = buffers.call(&image.bytes, library::number(Mode::Plain), room);
            let time = start.elapsed();
            assert_eq!(number, 0, "{}", self.name);
            time
        };
        self.exact
            .push(self.images.iter().map(|i| call(i, i.exact)));
        self.ample
            .push(self.images.iter().map(|i| call(i, i.ample)));
        self.tests.push(self.images.iter().map(|image| {
            let start = Instant::now();
            library::refusal(&image.bytes);
            start.elapsed()
        }));
        self.original.push(self.images.iter().map(|image| {
            let elements = image::read(&image.bytes).expect("a valid image");
            print::time(&print::file(&elements))
        }));
    }
}

/// The generated images that the original prints.
fn generated() -> impl Iterator<Item = Sample> {
    (0..)
        .map(|number| generate(DEFAULT_SEED, number, Options::default()))
        .filter(|sample| {
            image::read(&sample.image).is_ok_and(|elements| {
                matches!(print::print(&elements, Mode::Plain), Printed::Items(_))
            })
        })
}

/// The first of them that is full in both ways.
fn full() -> Vec<u8> {
    generated()
        .filter(|sample| sample.family == Family::Full)
        .map(|sample| sample.image)
        .find(|bytes| bytes.len() == 8 + 8 * MAX_ELEMENTS + MAX_BYTES)
        .expect("the generator gives one")
}

/// The first of them that have the size.
fn mix(has_size: impl Fn(usize) -> bool) -> impl Iterator<Item = Vec<u8>> {
    generated()
        .map(|sample| sample.image)
        .filter(move |bytes| has_size(image::read(bytes).map_or(0, |elements| elements.len())))
        .take(MIX)
}

/// The rows in the order in which they are shown.
fn rows() -> Vec<Row> {
    let mut rows: Vec<Row> = large()
        .into_iter()
        .map(|(name, bytes)| Row::new(name, std::iter::once(bytes)))
        .collect();
    rows.push(Row::new("generated, 32,000 bytes", std::iter::once(full())));
    rows.push(Row::new("a mix of 600 generated images", mix(|_| true)));
    rows.push(Row::new(
        "600 generated images of under 16 elements",
        mix(|elements| elements < SMALL),
    ));
    rows
}

/// Times all images and shows the ratios.
pub fn run() {
    let mut rows = rows();
    // Rounds over all images: what else the machine does meets all of them.
    for _ in 0..ROUNDS {
        rows.iter_mut().for_each(Row::round);
    }
    println!(
        "medians of {ROUNDS} rounds, on images of {MAX_ELEMENTS} elements where no other number is told"
    );
    println!(
        "ours: to ours on the first image | of it, tests 1 to 9 | to the original's | the same with ample room"
    );
    let mut first = None;
    for row in &mut rows {
        let [exact, ample, tests, original] = [
            &mut row.exact,
            &mut row.ample,
            &mut row.tests,
            &mut row.original,
        ]
        .map(Times::median);
        let first = *first.get_or_insert(exact);
        let records: usize = row.images.iter().map(|image| image.records).sum();
        println!(
            "{:5.2} {:5.2} {:5.2} {:5.2}  {}, {records} records",
            exact / first,
            tests / exact,
            exact / original,
            ample / original,
            row.name,
        );
    }
}

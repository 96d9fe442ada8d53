//! `vectors FILE KEEPING_FILE` writes the vectors of `crates/vectors` in the
//! repository, the first file in the plain mode and the second in the keeping mode,
//! and prints how many there are by source and by answer. A vector is two fields, an
//! image and what document 01's program answers in that mode; a field is three bytes
//! of length, the lowest first, and its bytes.

use std::{
    collections::{BTreeMap, BTreeSet, HashSet},
    env, fs,
    ops::RangeInclusive,
    path::Path,
    process::ExitCode,
};

use oracle::{
    Answers, answer, describe,
    generate::{
        Family::{self, Comments, Deep, Grammatical, Mutated, Random, Statements, Texts, Wide},
        Options, edges, generate,
    },
    image::{self, Element},
    print::{Mode, deep, kept},
};

const SEED: u64 = 2026;
/// How many images of the seed are looked through, of all families and of that of
/// texts, and how many that are full of comments around statements.
const COUNT: u64 = 30_000;
const STATEMENTS: u64 = 80_000;

/// So many bytes are escaped in a listing: those below 32, 127 and the backslash.
const ESCAPED: usize = 34;

/// What the keeping mode adds to the plain answer to an image.
#[derive(Clone, Copy, PartialEq, Eq)]
enum Added {
    Nothing,
    /// Before bases only.
    BeforeBases,
    /// Above statements or after them.
    AroundStatements,
}
use Added::{AroundStatements, BeforeBases, Nothing};

/// How many images of a family are kept, of those whose image and answer together
/// have so many bytes, and to which so much is added. Deep and wide ones have to be
/// answered with a listing, those of texts with one that has an escape.
type Row = (Family, usize, RangeInclusive<usize>, Added);

const PLAIN: [Row; 12] = [
    (Random, 620, 0..=300, Nothing),
    (Random, 80, 301..=700, Nothing),
    (Mutated, 200, 0..=300, Nothing),
    (Mutated, 40, 301..=1_000, Nothing),
    (Grammatical, 154, 0..=300, Nothing),
    (Grammatical, 40, 301..=1_000, Nothing),
    (Texts, 310, 0..=250, Nothing),
    (Texts, 40, 251..=800, Nothing),
    (Comments, 60, 0..=500, Nothing),
    (Comments, 30, 501..=1_000, Nothing),
    (Deep, 3, 0..=4_500, Nothing),
    (Wide, 1, 0..=20_000, Nothing),
];
const KEEPING: [Row; 17] = [
    (Statements, 350, 0..=250, AroundStatements),
    (Statements, 200, 251..=400, AroundStatements),
    (Statements, 30, 401..=700, AroundStatements),
    (Statements, 541, 0..=180, BeforeBases),
    (Statements, 110, 0..=180, Nothing),
    (Texts, 90, 0..=400, AroundStatements),
    (Texts, 115, 0..=250, BeforeBases),
    (Texts, 145, 0..=200, Nothing),
    (Random, 20, 0..=700, AroundStatements),
    (Random, 150, 0..=300, BeforeBases),
    (Random, 60, 0..=300, Nothing),
    (Mutated, 25, 0..=500, BeforeBases),
    (Mutated, 40, 0..=200, Nothing),
    (Grammatical, 30, 0..=1_000, BeforeBases),
    (Grammatical, 20, 0..=300, Nothing),
    (Comments, 10, 0..=1_000, BeforeBases),
    (Comments, 10, 0..=500, Nothing),
];

/// How many damaged images are kept for each of the refusals 1 to 9, by the mode,
/// and how long they are with their answer.
const DAMAGED: [usize; 2] = [45, 12];
const DAMAGED_SIZE: usize = 170;
/// An image at a limit is kept if it is no longer than this with its answer.
const AT_LIMIT: usize = 6_000;
/// What `crates/vectors` reads of a file.
const ROOM: usize = 524_288;

struct Vectors {
    mode: Mode,
    out: Vec<u8>,
    seen: HashSet<Vec<u8>>,
    by_source: BTreeMap<&'static str, usize>,
    by_answer: BTreeMap<u32, usize>,
    /// Those to which something is added, and of them those around statements.
    added: [usize; 2],
    /// Those with an escape in their answer, and all escapes there.
    escaped: usize,
    escapes: BTreeSet<Vec<u8>>,
}

/// The number of the refusal, 0 for a listing.
fn refusal(answer: &[u8]) -> u32 {
    let words = answer.strip_prefix(b"refused ");
    let number = words.and_then(|w| w.split(|b| *b == b' ').next());
    number.map_or(0, |n| String::from_utf8_lossy(n).parse().expect("a number"))
}

/// The escapes of an answer. No other backslash stands in a listing.
fn escapes(answer: &[u8]) -> impl Iterator<Item = &[u8]> {
    answer.windows(4).filter(|bytes| bytes[0] == b'\\')
}

impl Vectors {
    fn new(mode: Mode) -> Self {
        Self {
            mode,
            out: Vec::new(),
            seen: HashSet::new(),
            by_source: BTreeMap::new(),
            by_answer: BTreeMap::new(),
            added: [0; 2],
            escaped: 0,
            escapes: BTreeSet::new(),
        }
    }

    fn answer(&self, image: &[u8]) -> Vec<u8> {
        answer(image, Answers::Refusals, self.mode)
    }

    /// What the answer has that the plain one has not.
    fn added(&self, image: &[u8], answered: &[u8]) -> Added {
        if self.mode == Mode::Plain || answer(image, Answers::Refusals, Mode::Plain) == answered {
            return Nothing;
        }
        self.answer(image);
        match kept() {
            [0, 0, _] => BeforeBases,
            _ => AroundStatements,
        }
    }

    /// Adds an image with its answer unless it is there already.
    fn add(&mut self, source: &'static str, image: Vec<u8>, answer: &[u8]) -> bool {
        if self.seen.contains(&image) {
            return false;
        }
        for field in [&image, answer] {
            self.out.extend(&(field.len() as u32).to_le_bytes()[..3]);
            self.out.extend(field);
        }
        let added = self.added(&image, answer);
        self.added[0] += usize::from(added != Nothing);
        self.added[1] += usize::from(added == AroundStatements);
        self.escaped += usize::from(escapes(answer).next().is_some());
        self.escapes.extend(escapes(answer).map(<[u8]>::to_vec));
        self.seen.insert(image);
        *self.by_source.entry(source).or_default() += 1;
        *self.by_answer.entry(refusal(answer)).or_default() += 1;
        true
    }

    /// The cases of a folder that were written by hand, in the order of their names.
    fn add_cases(&mut self, folder: &str) {
        let dir = Path::new(env!("CARGO_MANIFEST_DIR")).join(folder);
        let entries = fs::read_dir(dir).expect("the folder of cases");
        let mut paths: Vec<_> = entries.map(|e| e.expect("an entry").path()).collect();
        paths.retain(|path| path.extension().is_some_and(|e| e == "tree"));
        paths.sort();
        for path in paths {
            let text = fs::read_to_string(path).expect("a case");
            let image = image::write(&describe::read(&text).expect("a tree"));
            let answer = self.answer(&image);
            self.add("by hand", image, &answer);
        }
    }

    fn add_limits(&mut self, at_limits: Vec<(&'static str, Vec<u8>)>, beyond: Vec<Vec<u8>>) {
        for (_, image) in at_limits {
            let answer = self.answer(&image);
            if image.len() + answer.len() <= AT_LIMIT {
                self.add("at a limit", image, &answer);
            }
        }
        for image in no_elements().into_iter().chain(beyond) {
            let answer = self.answer(&image);
            self.add("at a limit", image, &answer);
        }
    }

    /// Images of all families with a share, or of one only.
    fn add_generated(&mut self, left: &mut [Row], only: Option<Family>) {
        let options = Options {
            only,
            ..Options::default()
        };
        let count = if only == Some(Statements) {
            STATEMENTS
        } else {
            COUNT
        };
        for number in 0..count {
            let sample = generate(SEED, number, options);
            let answer = self.answer(&sample.image);
            let size = sample.image.len() + answer.len();
            if matches!(sample.family, Deep | Wide) && refusal(&answer) > 0
                || sample.family == Texts && escapes(&answer).next().is_none()
            {
                continue;
            }
            let row = left.iter_mut().find(|(family, count, sizes, added)| {
                *family == sample.family
                    && *count > 0
                    && sizes.contains(&size)
                    && *added == self.added(&sample.image, &answer)
            });
            if let Some((_, count, _, _)) = row
                && self.add(sample.family.name(), sample.image, &answer)
            {
                *count -= 1;
            }
        }
    }

    fn add_damaged(&mut self) {
        let options = Options {
            damaged: true,
            ..Options::default()
        };
        let mut left = [DAMAGED[self.mode as usize]; 10];
        for number in 0..COUNT {
            let image = generate(SEED + 1, number, options).image;
            let answer = self.answer(&image);
            let refusal = refusal(&answer) as usize;
            let wanted = (1..=9).contains(&refusal) && left[refusal] > 0;
            if wanted
                && image.len() + answer.len() <= DAMAGED_SIZE
                && self.add("damaged", image, &answer)
            {
                left[refusal] -= 1;
            }
        }
    }

    fn write(&self, file: &Path) {
        assert!(self.out.len() <= ROOM, "{} bytes", self.out.len());
        assert_eq!(self.escapes.len(), ESCAPED, "each escape is met");
        fs::write(file, &self.out).expect("write the vectors");
        let (mode, count, size) = (self.mode.name(), self.seen.len(), self.out.len());
        println!("{count} vectors of the {mode} mode, {size} bytes");
        for (source, count) in &self.by_source {
            println!("{count} {source}");
        }
        for (number, count) in &self.by_answer {
            println!("{count} of answer {number}");
        }
        println!("{} with an escape in the answer", self.escaped);
        if self.mode != Mode::Plain {
            let [other, around] = self.added;
            println!(
                "{other} with another answer than in the plain mode, {around} around statements"
            );
        }
    }
}

fn plain() -> Vectors {
    let mut vectors = Vectors::new(Mode::Plain);
    vectors.add_cases("cases");
    vectors.add_limits(edges::edges(), too_much(false));
    let mut left = PLAIN;
    vectors.add_generated(&mut left, None);
    vectors.add_generated(&mut left, Some(Texts));
    vectors.add_damaged();
    vectors
}

fn keeping() -> Vectors {
    let mut vectors = Vectors::new(Mode::Keeping);
    vectors.add_cases("cases/keeping");
    vectors.add_cases("cases");
    let at_limits = [edges::edges(), edges::kept_edges()].concat();
    vectors.add_limits(at_limits, too_much(true));
    let mut left = KEEPING;
    vectors.add_generated(&mut left, Some(Statements));
    vectors.add_generated(&mut left, None);
    vectors.add_generated(&mut left, Some(Texts));
    vectors.add_damaged();
    vectors
}

/// N is 0, and B what follows: the only short images for refusal 2.
fn no_elements() -> Vec<Vec<u8>> {
    let image = |length: u8| {
        let mut image = vec![0, 0, 0, 0, length, 0, 0, 0];
        image.extend(vec![b' '; length.into()]);
        image
    };
    (0..12).map(image).collect()
}

/// Images that need more room than document 01's program has: for records and the
/// listing, for all three, for texts and the listing, and three times for the listing
/// alone, once because of its escapes. One that needs it for records alone is at a limit. What takes the room
/// stands before the Expr, or in it, where only the keeping mode prints it.
fn too_much(in_expr: bool) -> Vec<Vec<u8>> {
    let file = |kind, text: String| {
        let element = |kind, level, text: &str| Element {
            kind,
            level,
            text: text.to_owned(),
        };
        // A file of the number 1 with an error or a comment before it.
        let mut all = vec![
            element(1, 0, ""),
            element(2, 1, ""),
            element(8, 2, ""),
            element(87, 3, "1"),
        ];
        if in_expr {
            all.insert(2, element(kind, 2, &text));
        } else {
            all.insert(1, element(kind, 1, &text));
        }
        image::write(&all)
    };
    let (lines, tabs, letters) = (|n| "\n".repeat(n), |n| "\t".repeat(n), |n| "x".repeat(n));
    // A line feed of an error gives two records, and so does one of a doc comment,
    // with longer lines in the listing. A tab that begins a doc comment gives four
    // bytes of texts.
    vec![
        file(70, lines(2_700)),
        file(65, format!("/**{}x*/", tabs(8_000))),
        file(65, format!("/**{}{}*/", tabs(4_980), letters(12_100))),
        file(65, format!("/**\nx{}x\n*/", lines(2_400))),
        file(70, format!("{}{}", lines(2_400), letters(5_000))),
        file(70, format!("{}{}", lines(2_400), "\\".repeat(1_500))),
    ]
}

fn main() -> ExitCode {
    let arguments: Vec<_> = env::args_os().skip(1).collect();
    let [file, keeping_file] = arguments.as_slice() else {
        eprintln!("usage: vectors FILE KEEPING_FILE");
        return ExitCode::FAILURE;
    };
    deep(plain).write(Path::new(file));
    deep(keeping).write(Path::new(keeping_file));
    ExitCode::SUCCESS
}

//! Makes data/ and stdout: what crate `children` is held to. `remake` compiles and runs it.
//!
//! The answers are worked out here with lists, as the scope paper tells it: which trivia is inline,
//! which waits, and what each child asks for. Nothing of the crate is used.
use std::fs;
use std::path::Path;

const LONGEST: u32 = 7;

/// How many sequences of each length above 3 the sample has.
const DRAWN: u32 = 256;

/// Stands behind a list in an answer.
const SIGN: u8 = 255;

#[derive(Clone, Copy, PartialEq)]
enum Sort {
    Child,
    Space,
    Single,
    Multi,
    Error,
    Separator,
    Other,
}

/// The ten elements of which sequences are made: what each is, and its line feeds.
const LETTERS: [(Sort, u32); 10] = [
    (Sort::Child, 0),
    (Sort::Space, 0),
    (Sort::Space, 1),
    (Sort::Space, 2),
    (Sort::Single, 1),
    (Sort::Multi, 0),
    (Sort::Multi, 1),
    (Sort::Error, 0),
    (Sort::Separator, 0),
    (Sort::Other, 0),
];

/// An element of a sequence: the first has number 1.
#[derive(Clone, Copy)]
struct Element {
    number: u8,
    sort: Sort,
    feeds: u32,
}

impl Element {
    fn is_trivia(&self) -> bool {
        matches!(self.sort, Sort::Space | Sort::Single | Sort::Multi)
    }
}

struct Child {
    number: u8,
    blank: bool,
    many: bool,
    before: Vec<Element>,
    inline: Vec<Element>,
}

enum Reading {
    Foreign(u8),
    Read {
        children: Vec<Child>,
        blank: bool,
        ending: Vec<Element>,
    },
}

/// Newlines in front: whitespace and errors, up to the first other trivia.
fn newlines_before(notes: &[Element]) -> u32 {
    let mut n = 0;
    for e in notes {
        match e.sort {
            Sort::Space => n += e.feeds,
            Sort::Error => n += 1,
            _ => break,
        }
    }
    n
}

/// Newlines behind, from the back: a single-line comment is the last that counts.
fn newlines_after(notes: &[Element]) -> u32 {
    let mut n = 0;
    for e in notes.iter().rev() {
        match e.sort {
            Sort::Space => n += e.feeds,
            Sort::Error => n += 1,
            Sort::Single => return n + 1,
            _ => {}
        }
    }
    n
}

/// What a pass over the elements carries.
#[derive(Default)]
struct Pass {
    children: Vec<Child>,
    waiting: Vec<Element>,
    started: bool,
    had: bool,
    trailing: Option<Vec<Element>>,
}

impl Pass {
    /// The newlines between the last child and what waits.
    fn newlines(&self) -> u32 {
        let behind = self
            .children
            .last()
            .map_or(0, |c| newlines_after(&c.inline));
        newlines_before(&self.waiting) + behind
    }

    /// Says whether something waits that bars the trailing list from the child.
    fn take_child(&mut self, number: u8) -> bool {
        if let Some(list) = self.trailing.take() {
            if !self.waiting.is_empty() {
                return true;
            }
            self.waiting = list;
        }
        let n = self.newlines();
        self.children.push(Child {
            number,
            blank: self.had && n >= 2,
            many: n >= 1,
            before: std::mem::take(&mut self.waiting),
            inline: Vec::new(),
        });
        (self.started, self.had) = (false, true);
        false
    }

    fn take_trivia(&mut self, e: Element) {
        if self.trailing.is_some() {
            return;
        }
        self.had = true;
        let stays = !self.started && (e.feeds == 0 || e.sort == Sort::Single);
        match self.children.last_mut() {
            Some(child) if stays => {
                child.inline.push(e);
                self.started = e.sort == Sort::Single;
            }
            _ => {
                self.waiting.push(e);
                self.started = true;
            }
        }
    }
}

fn reading(elements: &[Element], loose: bool, trailing: Option<Vec<Element>>) -> Reading {
    let mut pass = Pass {
        trailing,
        ..Pass::default()
    };
    for e in elements {
        match e.sort {
            Sort::Child => {
                if pass.take_child(e.number) {
                    return Reading::Foreign(e.number);
                }
            }
            Sort::Space | Sort::Single | Sort::Multi => pass.take_trivia(*e),
            Sort::Error => pass.waiting.push(*e),
            _ if loose && pass.had => break,
            _ if loose => pass.started = true,
            Sort::Separator => {}
            Sort::Other => return Reading::Foreign(e.number),
        }
    }
    let blank = pass.newlines() >= 2;
    Reading::Read {
        children: pass.children,
        blank,
        ending: pass.waiting,
    }
}

/// What waits before the first child, the end or a foreign element: the trailing list of the
/// readings that have one.
fn first_waiting(elements: &[Element], loose: bool) -> Vec<Element> {
    let mut waiting = Vec::new();
    let mut had = false;
    for e in elements {
        if e.is_trivia() || e.sort == Sort::Error {
            waiting.push(*e);
            had = had || e.is_trivia();
        } else if e.sort == Sort::Child || (loose && had) || (!loose && e.sort != Sort::Separator) {
            break;
        }
    }
    waiting
}

fn say_list(answer: &mut Vec<u8>, notes: &[Element]) {
    answer.extend(notes.iter().map(|e| e.number));
    answer.push(SIGN);
}

/// The numbers of an answer. Of a child that took a trailing list, no blank line is asked.
fn answer(elements: &[Element], loose: bool, trailing: Option<Vec<Element>>) -> Vec<u8> {
    let handed = trailing.is_some();
    let (children, blank, ending) = match reading(elements, loose, trailing) {
        Reading::Foreign(number) => return vec![1, number],
        Reading::Read {
            children,
            blank,
            ending,
        } => (children, blank, ending),
    };
    let many = children.iter().any(|c| c.many);
    let mut answer = vec![2, children.len() as u8, many as u8, blank as u8];
    say_list(&mut answer, &ending);
    for (k, c) in children.iter().enumerate() {
        answer.push(c.number);
        if k > 0 || !handed {
            answer.push(c.blank as u8);
        }
        answer.push(c.many as u8);
        say_list(&mut answer, &c.before);
        say_list(&mut answer, &c.inline);
    }
    answer
}

/// Strict, loose, strict and loose with a trailing list.
fn answers(word: &[u8]) -> [Vec<u8>; 4] {
    let element = |(number, &letter): (u8, &u8)| {
        let (sort, feeds) = LETTERS[letter as usize];
        Element {
            number,
            sort,
            feeds,
        }
    };
    let elements: Vec<Element> = (1..).zip(word).map(element).collect();
    let handed = |loose| answer(&elements, loose, Some(first_waiting(&elements, loose)));
    [
        answer(&elements, false, None),
        answer(&elements, true, None),
        handed(false),
        handed(true),
    ]
}

/// The sequence of a number: its decimal digits, the lowest first.
fn word(length: u32, number: u32) -> Vec<u8> {
    (0..length)
        .map(|i| (number / 10u32.pow(i) % 10) as u8)
        .collect()
}

/// FNV-1a of 32 bits, a number at a time.
fn mix(digest: u32, numbers: &[u8]) -> u32 {
    numbers
        .iter()
        .fold(digest, |h, &x| (h ^ x as u32).wrapping_mul(16777619))
}

/// The digests with the four answers to a sequence behind what they hold.
fn mixed(digests: [u32; 4], word: &[u8]) -> [u32; 4] {
    let answers = answers(word);
    [0, 1, 2, 3].map(|k| mix(digests[k], &answers[k]))
}

/// Of each reading the digest of all answers to the sequences of one length.
fn digests(length: u32) -> [u32; 4] {
    let numbers = 0..10u32.pow(length);
    numbers.fold([2166136261; 4], |d, number| mixed(d, &word(length, number)))
}

/// The sequences that a fixed generator draws.
fn drawn() -> Vec<Vec<u8>> {
    let mut words = Vec::new();
    let mut seed = 1u32;
    for k in 0..(LONGEST - 3) * DRAWN {
        seed = seed.wrapping_mul(1664525).wrapping_add(1013904223);
        let length = 4 + k / DRAWN;
        words.push(word(length, (seed >> 8) % 10u32.pow(length)));
    }
    words
}

/// The sample: all sequences of up to 3 elements, and those that are drawn.
fn sampled() -> Vec<Vec<u8>> {
    let all = |length| (0..10u32.pow(length)).map(move |number| word(length, number));
    (0..=3).flat_map(all).chain(drawn()).collect()
}

fn field(bytes: &[u8]) -> Vec<u8> {
    [&(bytes.len() as u16).to_le_bytes(), bytes].concat()
}

/// A sequence and its four answers: five fields, each two bytes of length and its bytes.
fn case(word: &[u8]) -> Vec<u8> {
    let answers = answers(word).map(|a| field(&a)).concat();
    [field(word), answers].concat()
}

/// What the program prints where all agree.
fn printed(sample: usize) -> String {
    let mut out = String::new();
    for n in 0..=LONGEST {
        let total = 10u32.pow(n);
        out += &format!("length {n}\n  sequences {total}\n  readings that agree 4\n");
    }
    out += &format!("sample {sample}\n  sequences that agree {sample}\n");
    out + &format!("  before the first that does not {sample}\n")
}

fn main() -> std::io::Result<()> {
    let here = std::env::args().nth(1).expect("the folder of the crate");
    let here = Path::new(&here);
    let sample = sampled();
    let cases: Vec<u8> = sample.iter().flat_map(|word| case(word)).collect();
    let digests: Vec<u32> = (0..=LONGEST).flat_map(digests).collect();
    let stored: Vec<u8> = digests.iter().flat_map(|d| d.to_le_bytes()).collect();
    fs::write(here.join("data/digests.bin"), stored)?;
    fs::write(here.join("data/sample.bin"), cases)?;
    fs::write(here.join("stdout"), printed(sample.len()))
}

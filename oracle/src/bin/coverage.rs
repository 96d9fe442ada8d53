//! `coverage [COUNT]` says in Markdown what the generated trees reach in the
//! originals. The default run is that of COVERAGE.md.

use std::collections::BTreeMap;

use oracle::{
    DEFAULT_COUNT, DEFAULT_SEED, Digest,
    generate::{Family, Options, generate},
    image::{self, Element},
    kinds,
    print::{Mode, Printed, deep, print},
};

fn main() {
    let count = std::env::args().nth(1).map_or(DEFAULT_COUNT, |word| {
        word.parse().expect("usage: coverage [COUNT]")
    });
    deep(|| {
        let mut run = Run::default();
        for number in 0..count {
            let sample = generate(DEFAULT_SEED, number, Options::default());
            run.add(sample.family, &sample.image);
        }
        run.report(count);
    });
}

#[derive(Default)]
struct Run {
    digest: Digest,
    families: [Sums; Family::ALL.len()],
    causes: BTreeMap<String, u64>,
    kinds: BTreeMap<u16, u64>,
    forms: BTreeMap<&'static str, u64>,
}

/// Of the images of a family.
#[derive(Default)]
struct Sums {
    images: usize,
    stopped: usize,
    elements: usize,
    bytes: usize,
    records: usize,
}

impl Run {
    fn add(&mut self, family: Family, bytes: &[u8]) {
        let elements = image::read(bytes).expect("a valid image");
        let printed = print(&elements, Mode::Plain);
        self.digest.add(&printed);
        let sums = &mut self.families[family as usize];
        sums.images += 1;
        sums.elements += elements.len();
        sums.bytes += elements.iter().map(|e| e.text.len()).sum::<usize>();
        match printed {
            Printed::Panicked { message, element } => {
                sums.stopped += 1;
                *self
                    .causes
                    .entry(cause(&elements, &message, element))
                    .or_default() += 1;
            }
            Printed::Items(records) => {
                sums.records += records.records.len();
                for element in &elements {
                    *self.kinds.entry(element.kind).or_default() += 1;
                    for form in forms(element) {
                        *self.forms.entry(form).or_default() += 1;
                    }
                }
            }
        }
    }

    fn report(&self, count: u64) {
        println!(
            "# What the generated trees reach\n\n\
             Written by `cargo run --release --offline --features count --bin coverage`, over the \
             first {count} images\nof seed {DEFAULT_SEED}. The feature puts counters into the \
             copies of nodes.rs, children.rs and comments.rs that are\ncompiled; the digest of \
             all answers, {}, is that of the unchanged files (`tests/coverage.rs`).\n",
            self.digest
        );
        println!("## Families\n");
        println!("| family | images | stop | share | elements | bytes | records |");
        println!("|---|--:|--:|--:|--:|--:|--:|");
        let mut all = Sums::default();
        for ((_, name, share), sums) in Family::ALL.iter().zip(&self.families) {
            if *share == 0 {
                continue;
            }
            sums.report(name);
            all.images += sums.images;
            all.stopped += sums.stopped;
            all.elements += sums.elements;
            all.bytes += sums.bytes;
            all.records += sums.records;
        }
        all.report("all");
        println!(
            "\nStop: the Rust panics, which is refusal 10. Elements, bytes and records are means, \
             the records of images that print."
        );
        table("Causes of refusal 10", "cause", &self.causes);
        table(
            "Forms of comments and errors in trees that print",
            "form",
            &self.forms,
        );
        self.report_kinds();
        report_accessors();
        report_branches();
    }

    fn report_kinds(&self) {
        println!("\n## Kinds in trees that print\n\n| kind | elements |\n|---|--:|");
        let all = (2..=107).filter(|k| kinds::is_node(*k) || kinds::is_token(*k));
        for kind in all.filter(|k| *k != kinds::STRING_BLOCK_KIND) {
            let count = self.kinds.get(&kind).copied().unwrap_or_default();
            println!("| {kind} {} | {count} |", kinds::name(kind));
        }
    }
}

impl Sums {
    fn report(&self, name: &str) {
        let mean = |sum: usize, of: usize| sum.checked_div(of).unwrap_or_default();
        println!(
            "| {name} | {} | {} | {:.1}% | {} | {} | {} |",
            self.images,
            self.stopped,
            100.0 * self.stopped as f64 / self.images.max(1) as f64,
            mean(self.elements, self.images),
            mean(self.bytes, self.images),
            mean(self.records, self.images - self.stopped),
        );
    }
}

fn table<K: std::fmt::Display>(title: &str, head: &str, rows: &BTreeMap<K, u64>) {
    println!("\n## {title}\n\n| {head} | count |\n|---|--:|");
    for (name, count) in rows {
        println!("| {name} | {count} |");
    }
}

/// Why printing stopped, and in which reading.
fn cause(elements: &[Element], message: &str, element: usize) -> String {
    let at = &elements[element];
    if message == "at least one spec is defined" {
        return "object comprehension without a CompSpec".to_owned();
    }
    if message == "assertion failed: next.is_empty()" {
        return "custom error before the first CompSpec of the second reading".to_owned();
    }
    assert!(message.starts_with("silently eaten token: "), "{message}");
    let parent = (0..element)
        .rfind(|p| elements[*p].level < at.level)
        .expect("a parent");
    let passed = |kinds: std::ops::RangeInclusive<u16>| {
        elements[parent + 1..element]
            .iter()
            .any(|e| e.level == at.level && kinds.contains(&e.kind))
    };
    let reading = match elements[parent].kind {
        1 if passed(2..=2) => ", after its Expr",
        1 => ", before its Expr",
        2 if passed(3..=17) => ", after its base",
        2 => ", before its base",
        // A member is foreign to the second reading alone.
        26 if passed(32..=34) || (28..=31).contains(&at.kind) => ", second reading",
        26 => ", first reading",
        _ => "",
    };
    let parent = kinds::name(elements[parent].kind);
    format!("foreign element in {parent}{reading}")
}

/// The forms that comments.rs or document 01 tell apart in a text.
fn forms(element: &Element) -> Vec<&'static str> {
    let text = element.text.as_str();
    match element.kind {
        64 if text.contains('\n') => vec!["white space with a line feed"],
        64 => vec!["white space without a line feed"],
        65 => multi_line_forms(&text[2..text.len() - 2]),
        66 => vec!["too short"],
        67 => vec!["unterminated"],
        68 if text[1..].trim().is_empty() => vec!["hash, empty"],
        68 => vec!["hash"],
        69 if text[2..].trim().is_empty() => vec!["slash, empty"],
        69 => vec!["slash"],
        70..=72 if text.is_empty() => vec!["error without text"],
        70..=72 if text.contains(['\n', '\t']) => vec!["error with line feeds or tabs"],
        70..=72 => vec!["error on one line"],
        _ => vec![],
    }
}

fn multi_line_forms(inside: &str) -> Vec<&'static str> {
    let (doc, inside) = match inside.strip_prefix('*') {
        Some(rest) => (true, rest),
        None => (false, inside),
    };
    let beside = inside
        .split('\n')
        .next()
        .is_some_and(|l| !l.trim().is_empty());
    let lines = inside.split('\n').filter(|l| !l.trim().is_empty()).count();
    let mut out = vec![match (lines, doc) {
        (0, false) => "multi-line, empty",
        (0, true) => "doc, empty",
        (1, false) => "multi-line, one line",
        (1, true) => "doc, one line",
        (_, false) => "multi-line, many lines",
        (_, true) => "doc, many lines",
    }];
    if lines > 1 && beside {
        out.push("many lines, the first beside the opening");
    }
    if inside
        .split('\n')
        .any(|l| l.trim_start_matches([' ', '*']).starts_with('\t'))
    {
        out.push("a line with a tab before its text");
    }
    if inside.contains('\r') {
        out.push("a carriage return in a multi-line comment");
    }
    out
}

fn report_accessors() {
    println!("\n## Accessors that lib.rs uses\n\n| accessor | found | missing |\n|---|--:|--:|");
    let mut never = Vec::new();
    for accessor in jrsonnet_rowan_parser::ACCESSORS {
        if !jrsonnet_formatter::CALLED.contains(&accessor.1) {
            continue;
        }
        let [found, missing] = counters::accessor(*accessor);
        if found + missing == 0 {
            never.push(format!("{}::{}", accessor.0, accessor.1));
        } else {
            println!("| {}::{} | {found} | {missing} |", accessor.0, accessor.1);
        }
    }
    println!(
        "\nNever called, though lib.rs calls an accessor of the same name on another type: {}.",
        never.join(", ")
    );
}

fn report_branches() {
    println!(
        "\n## Branches\n\nBy the line of the original in which the block or arm opens. \
              Skipped: an `if` without `else` whose test failed.\n"
    );
    println!("| line | entered | skipped |\n|---|--:|--:|");
    let branches = jrsonnet_formatter::BRANCHES;
    for &(file, line, _) in branches.iter().filter(|b| b.2) {
        let entered = counters::branch((file, line, true));
        let skipped = if branches.contains(&(file, line, false)) {
            counters::branch((file, line, false)).to_string()
        } else {
            String::new()
        };
        println!("| {file} {line} | {entered} | {skipped} |");
    }
    let count = |b: &&counters::Branch| counters::branch(**b);
    let (never, reached): (Vec<_>, Vec<_>) = branches.iter().partition(|b| count(b) == 0);
    let least = reached.iter().map(count).min().unwrap_or_default();
    let never: Vec<String> = never.iter().map(|b| format!("{} {}", b.0, b.1)).collect();
    println!(
        "\nNever reached: {}. The least of the other counts is {least}.",
        never.join(", ")
    );
}

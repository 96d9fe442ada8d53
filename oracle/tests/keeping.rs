//! The keeping mode: what it adds to the plain one, and nothing else.

use oracle::{
    Answers, DEFAULT_COUNT, DEFAULT_SEED, answer,
    generate::{Family, Options, generate},
    image::{self, Element},
    print::{Mode, Printed, deep, kept, print},
};

/// Of all families with a share, or of the family statements.
fn only(statements: bool) -> Option<Family> {
    statements.then_some(Family::Statements)
}

fn elements(number: u64, statements: bool) -> Vec<Element> {
    let options = Options {
        only: only(statements),
        ..Options::default()
    };
    let bytes = generate(DEFAULT_SEED, number, options).image;
    image::read(&bytes).expect("a valid image")
}

/// Without the comments and errors of Exprs.
fn bare(elements: &[Element]) -> Vec<Element> {
    let mut path: Vec<u16> = Vec::new();
    let mut out = elements.to_vec();
    out.retain(|e| {
        path.truncate(e.level as usize);
        let parent = path.last().copied();
        path.push(e.kind);
        !(parent == Some(2) && (65..=72).contains(&e.kind))
    });
    out
}

#[test]
fn without_comments_around_statements_both_modes_print_the_same() {
    deep(|| {
        let mut printed = 0;
        for number in 0..3_000 {
            let elements = bare(&elements(number, number % 2 == 0));
            let [plain, keeping] = Mode::BOTH.map(|mode| print(&elements, mode));
            assert_eq!(plain, keeping);
            printed += usize::from(matches!(plain, Printed::Items(_)));
        }
        assert!(printed > 2_000, "{printed}");
    });
}

/// Refusals 1 to 10 do not know the mode.
#[test]
fn both_modes_refuse_the_same() {
    fn refused(image: &[u8], mode: Mode) -> Option<(u32, usize)> {
        let answer = String::from_utf8(answer(image, Answers::Refusals, mode)).ok()?;
        let (number, element) = answer.strip_prefix("refused ")?.trim().split_once(' ')?;
        let refusal = (number.parse().ok()?, element.parse().ok()?);
        (refusal.0 <= 10).then_some(refusal)
    }
    deep(|| {
        let mut seen = [0; 11];
        for number in 0..6_000 {
            let options = Options {
                damaged: true,
                only: only(number % 2 == 0),
                ..Options::default()
            };
            let image = generate(DEFAULT_SEED, number, options).image;
            let plain = refused(&image, Mode::Plain);
            assert_eq!(plain, refused(&image, Mode::Keeping));
            seen[plain.map_or(0, |(number, _)| number as usize)] += 1;
        }
        assert!(seen.iter().all(|s| *s > 0), "{seen:?}");
    });
}

/// How many images the two modes print differently; in how many the keeping mode
/// prints more above a statement, after one and before a base; and in how many all
/// three.
fn reach(statements: bool) -> [usize; 5] {
    let mut counts = [0; 5];
    for number in 0..DEFAULT_COUNT {
        let elements = elements(number, statements);
        let keeping = print(&elements, Mode::Keeping);
        let kept = kept();
        let plain = print(&elements, Mode::Plain);
        let (Printed::Items(plain), Printed::Items(keeping)) = (&plain, &keeping) else {
            assert_eq!(plain, keeping);
            continue;
        };
        let more: usize = kept.iter().sum();
        assert_eq!(plain.records.len() + more, keeping.records.len());
        let places @ [above, after, before] = kept.map(|items| items > 0);
        let met = [plain != keeping, above, after, before, places == [true; 3]];
        for (count, met) in counts.iter_mut().zip(met) {
            *count += usize::from(met);
        }
    }
    counts
}

#[test]
fn the_counts_are_those_of_the_readme() {
    let readme = include_str!("../README.md");
    for (name, statements) in [("all families", false), ("statements", true)] {
        let thousands = |n: usize| match n {
            0..1_000 => n.to_string(),
            _ => format!("{},{:03}", n / 1_000, n % 1_000),
        };
        let counts = deep(|| reach(statements)).map(thousands);
        let row = format!("| {name} | {} |", counts.join(" | "));
        assert!(readme.contains(&row), "README.md lacks {row}");
    }
}

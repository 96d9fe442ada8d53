//! `compare [SEED [COUNT]]` holds the library against the original, and in the
//! keeping mode against its changed copy, in one process. It prints what was
//! compared and the smallest input that differs. `compare --speed` times the
//! library and the original instead.

use std::process::ExitCode;

use oracle::DEFAULT_SEED;

mod blocks;
#[cfg_attr(not(library), allow(dead_code))]
mod cells;
#[cfg(library)]
mod comments;
#[cfg(library)]
mod images;
#[cfg(library)]
mod inputs;
#[cfg(library)]
mod library;
#[cfg(library)]
mod listings;
#[cfg(library)]
mod modes;
#[cfg_attr(not(library), allow(dead_code))]
mod report;
#[cfg(library)]
mod speed;
#[cfg(library)]
mod threads;

use report::Report;

#[global_allocator]
static BLOCKS: blocks::Blocks = blocks::Blocks;

/// Enough for each sort of room to be tried twenty thousand times.
const DEFAULT_COUNT: u64 = 100_000;

fn main() -> ExitCode {
    #[cfg(library)]
    if std::env::args().skip(1).eq(["--speed"]) {
        oracle::print::deep(speed::run);
        return ExitCode::SUCCESS;
    }
    let mut words = std::env::args().skip(1).map(|w| w.parse::<u64>());
    let numbers = [words.next(), words.next()];
    let [Ok(seed), Ok(count)] = [(0, DEFAULT_SEED), (1, DEFAULT_COUNT)]
        .map(|(n, usual)| numbers[n].clone().unwrap_or(Ok(usual)))
    else {
        eprintln!("usage: compare [SEED [COUNT]] | compare --speed (with the library)");
        return ExitCode::FAILURE;
    };
    let reports = run(seed, count as usize);
    if reports.is_empty() {
        eprintln!(
            "nothing was compared: `crates/exports_c/archive` writes the library's archive, and \
             TUNGVESK_LIB names its directory"
        );
        return ExitCode::FAILURE;
    }
    for report in &reports {
        print!("{report}");
    }
    if reports.iter().all(Report::is_clean) {
        ExitCode::SUCCESS
    } else {
        ExitCode::FAILURE
    }
}

/// All comparisons over the first images of a seed.
#[cfg(library)]
fn run(seed: u64, count: usize) -> Vec<Report> {
    let inputs = inputs::Inputs::new(seed, count);
    let images = images::compare(&inputs, seed);
    let mut reports = vec![images.tests, images.refusals];
    reports.extend(images.answers);
    reports.extend(listings::compare(&inputs));
    reports.push(modes::compare(&inputs));
    reports.push(comments::of_images(&inputs));
    reports.push(comments::exhaustive());
    reports
}

#[cfg(not(library))]
fn run(_seed: u64, _count: usize) -> Vec<Report> {
    vec![]
}

#[cfg(test)]
mod tests {
    use oracle::print::deep;

    use super::*;

    /// A short run.
    #[test]
    #[cfg_attr(
        not(library),
        ignore = "no libexports.a: `crates/exports_c/archive` writes it"
    )]
    fn the_library_gives_what_the_oracle_gives() {
        let reports = deep(|| run(DEFAULT_SEED, 1_000));
        assert!(!reports.is_empty(), "nothing was compared");
        for report in reports {
            assert!(report.is_clean(), "{report}");
        }
    }
}

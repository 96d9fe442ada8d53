//! COVERAGE.md is of today's generator, and the counters changed no answer.

use oracle::{
    DEFAULT_COUNT, DEFAULT_SEED, Digest,
    generate::{Options, generate},
    image,
    print::{Mode, deep, print},
};

#[test]
fn the_digest_is_that_of_the_report() {
    let digest = deep(|| {
        let mut digest = Digest::default();
        for number in 0..DEFAULT_COUNT {
            let bytes = generate(DEFAULT_SEED, number, Options::default()).image;
            let elements = image::read(&bytes).expect("a valid image");
            digest.add(&print(&elements, Mode::Plain));
        }
        digest.to_string()
    });
    let report = include_str!("../COVERAGE.md");
    assert!(report.contains(&digest), "COVERAGE.md lacks {digest}");
}

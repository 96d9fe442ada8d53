#[path = "insert.rs"]
mod insert;
#[allow(dead_code, reason = "nothing is counted here")]
#[path = "../../build-support/originals.rs"]
mod originals;

const PACKAGE: &str = "jrsonnet-formatter";

fn main() {
    let printers = originals::read_of(PACKAGE, "lib.rs");
    match insert::insert(&printers) {
        Ok(changed) => originals::write("lib.rs", &changed),
        Err(fault) => println!("cargo::error=the keeping mode cannot be made: {fault}"),
    }
    // For the test.
    originals::write("unchanged.rs", &printers);
    // lib.rs names a module of tests that is not at hand.
    originals::write("tests.rs", "");
    for name in ["children.rs", "comments.rs"] {
        originals::write(name, &originals::read_of(PACKAGE, name));
    }
}

//! Where the original calls what the stand-ins leave out, it stops; nothing is
//! made up.

use jrsonnet_formatter::{FormatOptions, format};
use oracle::{
    describe,
    print::{Mode, Printed, print},
};

#[test]
fn a_string_block_stops() {
    let described = "SourceFile\n  Expr\n    ExprString\n      StringBlock \"|||\\n a\\n|||\"\n";
    let elements = describe::read(described).expect("a tree");
    let Printed::Panicked { message, .. } = print(&elements, Mode::Plain) else {
        panic!("a string block was printed");
    };
    assert_eq!(message, "string blocks are not read by the oracle");
}

#[test]
#[should_panic(expected = "the parser is not part of the oracle")]
fn the_wrapper_stops() {
    let _ = format("1", &FormatOptions::default());
}

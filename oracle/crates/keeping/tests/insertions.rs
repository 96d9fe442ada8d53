//! The file that is compiled is the original with three lines added.

#[path = "../insert.rs"]
mod insert;

const ORIGINAL: &str = include_str!(concat!(env!("OUT_DIR"), "/original/unchanged.rs"));
const CHANGED: &str = include_str!(concat!(env!("OUT_DIR"), "/original/lib.rs"));

fn is_added(line: &&str) -> bool {
    line.starts_with("keep(")
}

#[test]
fn without_the_added_lines_it_is_the_original() {
    let lines = CHANGED.split_inclusive('\n');
    let left: String = lines.filter(|line| !is_added(line)).collect();
    assert_eq!(left, ORIGINAL);
    assert_eq!(CHANGED.lines().filter(is_added).count(), 3);
    assert_eq!(ORIGINAL.lines().filter(is_added).count(), 0);
}

#[test]
fn what_is_looked_for_stands_once() {
    let printer = "impl Printable for Expr {\n";
    let (stmt, base) = (
        "\tp!(out, { stmt.value });\n",
        "\tp!(out, { self.expr_base() });\n",
    );
    let text = |parts: &[&str]| insert::insert(&(parts.concat() + "}\n"));
    assert!(text(&[printer, stmt, base]).is_ok());
    let fault = |parts: &[&str]| text(parts).expect_err("a fault");
    for (parts, line) in [
        (&[stmt, base][..], printer),
        (&[printer, stmt, base, printer], printer),
        (&[printer, base], stmt),
        (&[printer, stmt, stmt, base], stmt),
        (&[printer, stmt], base),
        (&[printer, stmt, base, base], base),
        // Not behind the printer's end.
        (&[printer, stmt, "}\n", base], base),
        (&[stmt, printer, base], stmt),
    ] {
        let fault = fault(parts);
        assert!(fault.starts_with(&format!("`{}`", line.trim())), "{fault}");
    }
    assert!(insert::insert(printer).is_err(), "it has no end");
}

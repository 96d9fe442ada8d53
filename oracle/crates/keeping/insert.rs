// Adds to the printer of an Expr what document 02 (Ask 1) has it print in the
// keeping mode.

/// Begins the printer. It ends with the first line that is a bracket alone.
const PRINTER: &str = "impl Printable for Expr {";

/// Lines of the printer, each with what is put above it and what below it.
const INSERTIONS: [(&str, &[&str], &[&str]); 2] = [
    (
        "p!(out, { stmt.value });",
        &["keep(Kept::Before, &stmt.before_trivia, out);"],
        &["keep(Kept::Inline, &stmt.inline_trivia, out);"],
    ),
    (
        "p!(out, { self.expr_base() });",
        &["keep(Kept::Left, &_ending.trivia, out);"],
        &[],
    ),
];

/// The text with the lines of [`INSERTIONS`], or what does not stand once where it
/// is looked for.
pub fn insert(text: &str) -> Result<String, String> {
    let mut lines: Vec<&str> = text.lines().collect();
    let start = once(&lines, |line| line == PRINTER).ok_or_else(|| missing(PRINTER, "lib.rs"))?;
    let length = lines[start..].iter().position(|line| *line == "}");
    let mut end = start + length.ok_or_else(|| missing("}", PRINTER))?;
    for (line, above, below) in INSERTIONS {
        let at = once(&lines[start..end], |l| l.trim() == line);
        let at = start + at.ok_or_else(|| missing(line, PRINTER))?;
        lines.splice(at..=at, [above, &[lines[at]], below].concat());
        end += above.len() + below.len();
    }
    Ok(lines.join("\n") + "\n")
}

/// Where the only such line stands.
fn once(lines: &[&str], is: impl Fn(&str) -> bool) -> Option<usize> {
    let mut all = (0..lines.len()).filter(|at| is(lines[*at]));
    all.next().filter(|_| all.next().is_none())
}

fn missing(line: &str, place: &str) -> String {
    format!("`{line}` does not stand just once in `{place}`")
}

// Puts a counter into each block and arm of a file that is laid out as rustfmt
// does it, and into the side without a block of each `if` that has no `else`.

/// A line and whether the branch is the block that opens there.
type Branch = (usize, bool);

pub fn count(name: &str, text: &str) -> (String, Vec<Branch>) {
    let lines: Vec<&str> = text.lines().collect();
    let mut out: Vec<String> = lines.iter().map(|l| (*l).to_owned()).collect();
    let mut branches = Vec::new();
    let hit =
        |line: usize, entered: bool| format!("::counters::hit({name:?}, {}, {entered});", line + 1);
    for (at, line) in lines.iter().enumerate() {
        let code = line.trim();
        if code.starts_with("//") || code.contains("unreachable!") {
            continue;
        }
        if let Some((pattern, value)) = code.split_once(" => ")
            && let Some(value) = value.strip_suffix(',').or(value.strip_suffix("{}"))
        {
            out[at] = format!("{pattern} => {{ {} {value} }}", hit(at, true));
        } else if opens_block(code) {
            out[at] = format!("{} {}", out[at], hit(at, true));
            if let Some(end) = end_without_else(&lines, at) {
                out[end] = out[end].replacen('}', &format!("}} else {{ {} }}", hit(at, false)), 1);
                branches.push((at + 1, false));
            }
        } else {
            continue;
        }
        branches.push((at + 1, true));
    }
    branches.sort();
    (out.join("\n"), branches)
}

/// Whether a block of statements opens at the end of a line, and not a list of
/// arms, fields or names.
fn opens_block(code: &str) -> bool {
    let Some(head) = code.strip_suffix('{') else {
        return false;
    };
    let item = ["use ", "pub struct ", "pub enum ", "impl "];
    // A struct literal: its name is the last word, and no type of a result.
    let name = head.trim_end();
    let rest = name.trim_end_matches(char::is_alphanumeric);
    let literal = name[rest.len()..].starts_with(char::is_uppercase) && !rest.ends_with("-> ");
    !(literal || head.contains("match ") || item.iter().any(|i| head.starts_with(i)))
}

/// The line that ends the block of an `if` without `else`.
fn end_without_else(lines: &[&str], at: usize) -> Option<usize> {
    // The statement of the block begins after the end of another, or of a block.
    let ends = |line: &str| line.is_empty() || line.ends_with([';', '{', '}']);
    let start = (0..=at)
        .rev()
        .find(|l| lines[*l].trim().starts_with('}') || *l == 0 || ends(lines[*l - 1]))?;
    let head = lines[start].trim();
    if !(head.starts_with("if ") || head.starts_with("} else if ")) {
        return None;
    }
    let indent = |line: &str| line.len() - line.trim_start().len();
    let end = (at + 1..lines.len())
        .find(|l| lines[*l].trim().starts_with('}') && indent(lines[*l]) == indent(lines[start]))?;
    (!lines[end].contains("else")).then_some(end)
}

/// The names of all methods that are called without arguments.
pub fn methods(text: &str) -> Vec<String> {
    let mut names: Vec<String> = Vec::new();
    for (end, _) in text.match_indices("()") {
        let word = |c: char| c.is_alphanumeric() || c == '_';
        let before = text[..end].trim_end_matches(word);
        let name = text[before.len()..end].to_owned();
        if before.ends_with('.') && !names.contains(&name) {
            names.push(name);
        }
    }
    names.sort();
    names
}

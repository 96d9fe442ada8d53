#!/usr/bin/env python3
"""Writes the tables of crates `plan` and `printer` from the readable list of rows.

The list is `rows` in specs/Layout.antt: for each kind of node with a fixed layout, the pieces that it prints. From it follow the
numbers of wanted parts and pieces (specs/Rows.antt), the code's tables over them (src/rows.rt), in two of them with an answer for each
entry (proofs/rows), and the numbers of texts, which the writer of a plan knows (crate `plan`: specs/Words.antt, src/words.rt). A
text that the code prints by itself has a constant in src/words.rt, and stands in FIXED below at the constant's number.

    crates/printer/tables.py            writes these files
    crates/printer/tables.py --check    names the files that would change, and changes none

After it come `rt fmt` and `rt check` in `printer`, which proves that the tables are those of the definitions.
"""
import re
import sys
from pathlib import Path

HERE = Path(__file__).resolve().parent
LAYOUT, ROWS, CODE = (HERE / path for path in ("specs/Layout.antt", "specs/Rows.antt", "src/rows.rt"))
TEXTS, WORDS = (HERE.parent / "plan" / path for path in ("specs/Words.antt", "src/words.rt"))
CLASS, KIND = (HERE.parent / path for path in ("tree/src/class.rt", "numbers/src/kind.rt"))

# The texts of the constants of src/words.rt; number 0 is no text.
FIXED = ["", ",", " ", "[ ]", "[", "]", "{ }", "{", "}", "(", ")", "local", "local ", ";", "/*missing ExprBase*/", "/*missing Expr*/"]

# What a piece prints, as `what_in` of src/rows.rt reads it.
TEXT, NEW_LINE, INDENT, OUTDENT, PART, EACH, EACH_ENDED, PLUS = range(8)
SIGNALS = {"NewLine": NEW_LINE, "StartIndent": INDENT, "FinishIndent": OUTDENT}

# Kinds of nodes are smaller, and so are all kinds; characters a line of a definition.
NODES, KINDS, WIDTH = 64, 108, 140


# ---- reading the list

def terms(words):
    """A term from its words: a name or text with its arguments, up to a closing bracket."""
    found = []
    while words and words[0] not in (")", "∷", "⇒"):
        word = words.pop(0)
        if word == "(":
            found.append(listed(words))
            words.pop(0)
        else:
            found.append(word)
    return found[0] if len(found) == 1 else tuple(found)


def listed(words):
    """Terms parted by `∷` as a list; `kind ⇒ pieces` as a pair; any other term as it is."""
    first = terms(words)
    if words and words[0] == "⇒":
        words.pop(0)
        return (first, listed(words))
    if words and words[0] == "∷":
        words.pop(0)
        return [first, *listed(words)]
    return [] if first == "[]" else first


def parse(text):
    return listed(re.findall(r'"[^"]*"|[()∷⇒]|[^\s()]+', text))


def definition(name, text):
    """What stands behind `name =`, up to the next blank line."""
    return re.search(rf"^{name} =(.*?)(?:\n\n|\Z)", text, re.M | re.S).group(1)


class Tables:
    """Pieces in the order of their rows, and the texts and wanted parts that they name, each numbered when it is first met."""

    def __init__(self, layout):
        self.named = {n: parse(definition(n, layout)) for n in re.findall(r"^abbrev pub (\w+) : Piece$", layout, re.M)}
        self.words, self.wants, self.pieces, self.starts = list(FIXED), [("Operator", 0)], [], {}
        for kind, pieces in parse(definition("rows", layout)):
            self.starts[int(kind)] = len(self.pieces)
            self.pieces += [self.piece(p) for p in pieces]

    def number(self, table, entry, first):
        if entry not in table[first:]:
            table.append(entry)
        return table.index(entry, first)

    def word(self, text):
        return self.number(self.words, text.strip('"'), 0)

    def want(self, term):
        place = {"first_of": 0, "second_of": 1}[term[0]]
        return self.number(self.wants, (term[1].removeprefix("Class."), place), 1)

    def what(self, term):
        """The last three numbers of a piece: what it prints, of which part, with which text."""
        head, *rest = (term,) if isinstance(term, str) else term
        if head == "txt":
            return [TEXT, 0, self.word(rest[0])]
        if head == "bare":
            return [SIGNALS[rest[0]], 0, 0]
        if head == "part":
            return [PART, self.want(rest[0]), self.word(rest[1])]
        if head == "opt":
            return [PART, self.want(("first_of", rest[0])), 0]
        if head == "each":
            return [EACH_ENDED if rest[2] == "true" else EACH, self.want(("first_of", rest[0])), self.word(rest[1])]
        return [PLUS, 0, 0]

    def piece(self, term):
        """The six numbers of a piece: two given parts, one that bars it, and what it prints."""
        head, *rest = (term,) if isinstance(term, str) else term
        if head in self.named:
            return self.piece(self.named[head])
        if head == "t":
            return [0, 0, 0, *self.what(("txt", rest[0]))]
        if head == "one":
            return [0, 0, 0, *self.what(("part", ("first_of", rest[0]), rest[1]))]
        if head == "maybe":
            return [0, 0, 0, *self.what(("opt", rest[0]))]
        if head == "always":
            return [0, 0, 0, *self.what(rest[0])]
        asked = ([self.want(w) for w in rest[0]] + [0, 0])[:2]
        inner = self.piece(rest[1])
        return [*asked, *inner[2:]] if head == "given" else [*inner[:2], asked[0], *inner[3:]]


# ---- writing the tables

def kinds(class_name):
    """The numbers from, to and but of a class, by class.rt and kind.rt."""
    numbers = dict(re.findall(r"pub const (\w+): u32 = (\d+);", KIND.read_text()))
    made, args = re.search(rf"Class::{class_name} => (\w+)\(([^)]*)\)", CLASS.read_text()).groups()
    found = [int(numbers[a.strip().removeprefix("kind::")]) for a in args.split(",") if a.strip()]
    return {"only": found * 2 + [0], "from": found + [0], "without": found}[made]


def definition_lines(members):
    """Members of a list joined by `∷`, in lines."""
    lines = [""]
    for m in members:
        if len(lines[-1]) + len(m) > WIDTH:
            lines.append("")
        lines[-1] += ("" if len(lines) == 1 and not lines[0] else "∷ " if not lines[-1] else " ∷ ") + m
    return "".join(f"\n    {line}" for line in [*lines, "∷ []"])


def replaced(text, pattern, new):
    """The text with the one place that fits the pattern's group written anew."""
    m = re.search(pattern, text, re.M | re.S)
    return text[: m.start(1)] + new + text[m.end(1):]


def counted(text, name, members):
    return replaced(text, rf"^{name}_count = (\d+)$", str(len(members)))


def rows_definition(tables, text):
    wants = [f"{'second_of' if place else 'first_of'} Class.{c}" for c, place in tables.wants]
    text = replaced(text, r"^wants =(.*?)\n\n", definition_lines(wants))
    return counted(counted(text, "want", wants), "piece", tables.pieces)


def words_definition(tables, text):
    words = [f'"{w}"' for w in tables.words]
    return counted(replaced(text, r"^words =(.*?)\n\n", definition_lines(words)), "word", words)


def packed(numbers):
    """Numbers as one, eight bits each, the first of them lowest."""
    return "0x" + "_".join(f"{n:02x}" for n in reversed(numbers))


def tests(pieces):
    """How often a node with these pieces is asked for a part that may be missing; a `+` takes the longest to look for."""
    return sum((p[0] > 0) + (p[1] > 0) + (p[2] > 0) + (p[3] == PART and p[5] == 0) + 2 * (p[3] == PLUS) for p in pieces)


def marked(pieces):
    """Whether the parts of a node with these pieces are marked first: if a piece goes by them, or there is more than one test."""
    return any(any(p[:3]) for p in pieces) or tests(pieces) > 1


def row_entries(tables):
    """Where the row of each kind starts and ends, and whether the node's parts are marked first."""
    starts = [min([s for k, s in tables.starts.items() if k >= kind], default=len(tables.pieces)) for kind in range(NODES + 1)]
    return {k: packed([a, b, int(marked(tables.pieces[a:b]))]) for k, (a, b) in enumerate(zip(starts, starts[1:]))}


def piece_entries(tables):
    return {q: packed(p) for q, p in enumerate(tables.pieces)}


def want_entries(tables):
    return {w: packed([*kinds(c), place]) for w, (c, place) in enumerate(tables.wants)}


def marks_entries(tables):
    """For each kind the wanted parts whose class it is of, a bit each."""
    ranges = [kinds(c) for c, _ in tables.wants]
    marks = [sum(1 << w for w, (lo, hi, but) in enumerate(ranges) if lo <= k <= hi and k != but) for k in range(KINDS)]
    return {k: f"0x{m:x}" for k, m in enumerate(marks)}


# The tables of src/rows.rt: the function that has one, its entries, and the law by which an entry is that of its number, by computed
# tests; none where the check finds each answer.
TABLES = (
    ("row_code", row_entries, "rowed {} {} refl refl"),
    ("piece_code", piece_entries, "coded {} {} refl refl refl"),
    ("want_code", want_entries, None),
    ("marks_of", marks_entries, None),
)


def word_starts(tables):
    return {i: sum(map(len, tables.words[:i])) for i in range(len(tables.words) + 1)}


def with_arms(text, name, entries):
    """The text with the arms of the match of a function written anew."""
    arms = [f"{n} => {e}," for n, e in entries.items()]
    return replaced(text, rf"fn {name}\(.*?match \w+ {{(.*?)_ => ", "\n        " + "\n        ".join(arms) + "\n        ")


def rows_code(tables, text):
    for name, entries, _ in TABLES:
        text = with_arms(text, name, entries(tables))
    return text


def arms_proof(entries, law):
    """An answer for each entry of a table."""
    def made(tables, text):
        numbers = entries(tables)
        head, unfolding = text[:text.index("pub returns-")], re.search(r"^unfolding .*$", text, re.M)[0]
        answers = {f"in-{n}": law.format(n, f"c.in-{n}.is") for n in numbers}
        return head + "\n".join(f"pub returns-{arm} : goal.returns-{arm}\n{unfolding}\nreturns-{arm} c = {answer}\n" for arm, answer in answers.items())
    return made


def words_code(tables, text):
    joined = "".join(tables.words)
    text = replaced(text, r"const WORDS: u32 = (\d+);", str(len(tables.words)))
    text = replaced(text, r"const ALL: \[u8; (\d+)\]", str(len(joined)))
    text = replaced(text, r'const ALL: \[u8; \d+\] =\s*\*b"(.*?)";', joined)
    return with_arms(text, "start_of", word_starts(tables))


def main():
    tables, check, status = Tables(LAYOUT.read_text()), "--check" in sys.argv, 0
    files = [(ROWS, rows_definition), (CODE, rows_code), (TEXTS, words_definition), (WORDS, words_code)]
    files += [(HERE / f"proofs/rows/{name}/Answers.antt", arms_proof(entries, law)) for name, entries, law in TABLES if law]
    for path, made in files:
        old = path.read_text()
        new = made(tables, old)
        if "".join(old.split()) == "".join(new.split()):
            continue  # `rt fmt` has the layout
        print(path.relative_to(HERE.parent.parent))
        if check:
            status = 1
        else:
            path.write_text(new)
    return status


sys.exit(main())

#!/usr/bin/env python3
"""Respells the names that the repository's .antt files give, after the kit's port.py: a word in snake case, a lemma's
dashes only between two names. Names of src/, strings, inputs and outputs stay.

usage: tools/respell.py [--list]     at the top of the repository; --list prints old and new names, and writes nothing
"""
import os
import re
import sys

# Words of the library by which a lemma may be named, beside the repository's own.
LIBRARY = set("length append take drop set map list nil cons add mul sub max min suc reverse sum get get_or".split())
PART = r"[\w'◌≤<≡+*^-]"
DEFINED = re.compile(r"^((?:abbrev |unfoldable |pub |data |record |ruleset )*)([^\s:(){};,.]+)(?: .*)? : ", re.M)
MEMBER = re.compile(r"^ +(?:pub |\| )?([a-z][\w'-]*)(?: [a-z][\w']*)* : ", re.M)
# Lemmas that port.py gave the name that a word of theirs has now.
LEMMAS = ["parts_from", "plain_entry", "size_in", "level_in", "same_bytes", "text_at"]
# Constructors beside others of one type, definitions in modules and blocks, and one name under which another is imported.
MORE = """comp_body comp_of each_of end_of_items every_row in_many in_one item_inline local_of many_binds note_kinds part_or run_end statements_of
text_lines walked_after weight_of with_comments""".split()
CAMEL = re.compile(r"^[a-z][\w']*[A-Z]")


def files(*endings):
    for base, folders, names in os.walk("crates"):
        folders[:] = sorted(f for f in folders if f != "out")
        for name in sorted(names):
            if name.endswith(endings):
                yield os.path.join(base, name)


def read(path):
    with open(path, encoding="utf-8") as f:
        return f.read()


def of_functions(path):
    """A file of a function's proof names what Rattle makes: those names are not ours."""
    return "/proofs/" in path and re.search(r"/proofs/.*/(Proof|Invariants|Answers)\.antt$", path) is not None


def snake(word):
    """Lower camel case to snake case; a type within a name keeps its capital only where the whole word has it."""
    return re.sub(r"(?<=[a-z0-9])([A-Z])", lambda m: "_" + m[1].lower(), word)


def names():
    """The words and the lemmas that the files of specs/ and proofs/ give."""
    words, lemmas = set(), set()
    for path in files(".antt"):
        if of_functions(path):
            continue
        text = re.sub(r"--.*", "", read(path))
        for found in DEFINED.finditer(text):
            name = found[2]
            (lemmas if "-" in name else words).add(name)
        words |= {m[1] for m in MEMBER.finditer(text)}
    return words | {re.sub(r"_([a-z])", lambda m: m[1].upper(), it) for it in MORE}, lemmas


def functions():
    found = set()
    for path in files(".rt"):
        found |= set(re.findall(r"\bfn (\w+)", read(path)))
    return found


def respelled(words, lemmas, rust):
    new = {}
    for word in words:
        if CAMEL.match(word) and word not in rust:
            new[word] = snake(word)
    known = words | rust | LIBRARY | {snake(w) for w in words}
    for lemma in lemmas:
        if not re.match(r"^[\w'-]+$", lemma) or lemma[0].isupper():
            continue
        parts = [snake(p) for p in lemma.split("-")]
        out = parts[0]
        for before, after in zip(parts, parts[1:]):
            both = before in known and after in known and len(before) > 2 and len(after) > 2 and not after.isdigit()
            out += ("-" if both else "_") + after
        if out in words or out in new.values():
            out += "_lem"
        if out != lemma:
            new[lemma] = out
    return new


def main(argv):
    words, lemmas = names()
    rust = functions()
    new = respelled(words, lemmas, rust)
    taken = {}
    for old, name in new.items():
        taken.setdefault(name, set()).add(old)
    for name, olds in taken.items():
        if len(olds) > 1 or name in words | lemmas - set(MORE):
            print(f"look: {sorted(olds)} -> {name}" + (" (there already)" if name in words | lemmas else ""))
    if argv == ["--list"]:
        for old in sorted(new):
            print(old, new[old])
        return 0
    lem = re.compile(r"(?<![\w'.-])(?:" + "|".join(LEMMAS) + r")(?![\w'.-])")
    for path in files(".antt"):
        text = read(path)
        turned = lem.sub(lambda m: m[0] + "_lem", text)
        if turned != text:
            with open(path, "w", encoding="utf-8") as f:
                f.write(turned)
    one = re.compile(r"(?<![\w'◌-])(?:" + "|".join(re.escape(o) for o in sorted(new, key=len, reverse=True)) + r")(?![\w'◌-])")
    for path in files(".antt", ".rt", ".edit"):
        text = read(path)
        turned = one.sub(lambda m: new[m[0]], text)
        if turned != text:
            with open(path, "w", encoding="utf-8") as f:
                f.write(turned)
    return 0


if __name__ == "__main__":
    sys.exit(main(sys.argv[1:]))

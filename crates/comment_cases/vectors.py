#!/usr/bin/env python3
"""Makes data/vectors.bin, data/large.bin and stdout: what the original prints for comment tokens.

The program `comments` of ../../oracle, which the script builds with cargo, is asked for every token; ORACLE_SRC names the
directory of the original's files, as for every build there. Running the script again writes the same bytes.

A case of vectors.bin is four fields, each two bytes of length and its bytes: the token's kind, its text, its items above an
item (and after all items, which the program checks) and its items inline, or 255 if they are the same. An item is its kind,
and for a text a byte of length and its bytes. A case of large.bin is seven fields: the kind, a head, a piece, how often the
piece comes, a tail, and for each of the two places three numbers of four bytes: records, text bytes, checksum.
"""
import itertools
import os
import random
import subprocess

HERE = os.path.dirname(os.path.abspath(__file__))
WHITESPACE, MULTI_LINE, TOO_SHORT, UNTERMINATED, HASH, SLASH, MISSING_TOKEN, UNEXPECTED_TOKEN, CUSTOM = range(64, 73)
# In the order of the program's output.
LABELS = {
    MULTI_LINE: "multi-line comments", HASH: "hash comments", SLASH: "slash comments",
    WHITESPACE: "white space", TOO_SHORT: "comments too short", UNTERMINATED: "comments not ended",
    MISSING_TOKEN: "missing tokens", UNEXPECTED_TOKEN: "unexpected tokens", CUSTOM: "custom errors",
}
LETTERS = ["*", " ", "\t", "\n", "a", "\x85"]
WHITE = [*range(0x09, 0x0E), 0x20, 0x85, 0xA0, 0x1680, *range(0x2000, 0x200B), 0x2028, 0x2029, 0x202F, 0x205F, 0x3000]
NEAR = [0x08, 0x0E, 0x1C, 0x1F, 0x84, 0x86, 0xA1, 0x180E, 0x200B, 0x2060, 0xFEFF]
PIECES = [
    "\n", "\n", "\n", "\n", "\r\n", "\r\n", "\r", "\n\n", "\t", "\t", "\t\t", " ", " ", "  ", "    ", "*", "*", "**", " * ", " *",
    "\n * ", "\n\t* ", "\n  ", "\n\t", "\r\n *", "\n *\n", "a", "pump", "flow rate", "é", "日本", "\U0001f4a7", "/", "/*", "#", "\x0b",
    "\x0c", "\x85", "\xa0", "\u1680", "\u2003", "\u2028", "\u3000", "\u200b", "\ufeff", "\0",
]
AS_ABOVE = b"\xff"
MODULUS = 4294967291
FACTOR = 65599


def strings(longest):
    for n in range(longest + 1):
        for letters in itertools.product(LETTERS, repeat=n):
            yield "".join(letters)


def sample(rng, count, shortest, longest):
    """Longer strings over the same letters, no two of them equal."""
    found = {}
    while len(found) < count:
        found["".join(rng.choices(LETTERS, k=rng.randint(shortest, longest)))] = True
    return list(found)


def mixed(rng, count, most):
    return ["".join(rng.choices(PIECES, k=rng.randint(1, most))) for _ in range(count)]


def whole_lines(rng, count):
    """Lines with much the same padding, as people write them."""
    for _ in range(count):
        padding = rng.choice(["", " ", "  ", "\t", "\t\t", " * ", " *", "\t* ", "\t ", "** "])
        ending = rng.choice(["\n", "\r\n"])
        starts, others = ["", padding, padding[:1]], [padding, padding, ""]
        rests = ["", "a", "\tb", " c", "* d", "e \t", "\x85", "\x85f", "*"]
        first = rng.choice(["", "*", "* ", " "])
        yield first + ending.join(rng.choice(starts) + rng.choice(others) + rng.choice(rests) for _ in range(rng.randint(1, 6)))


def around(characters):
    for c in map(chr, characters):
        yield from (c, "a" + c, c + "a", c + "a" + c, "\n" + c + "a\n" + c + "b", "a\n" + c + "b" + c)


def tokens():
    rng = random.Random(3629)
    multi = [*strings(4), *sample(rng, 1500, 5, 9), *around(WHITE + NEAR), *mixed(rng, 700, 16), *whole_lines(rng, 700)]
    multi += ["/", "*/", "/*", "a*/b", "*\n*/\n*", "\ta\n\tb\n", "a\n\n  b", "\n  a\n    b\n", " pump ", "*" * 40, "\t" * 40, "\n" * 40]
    yield from ((MULTI_LINE, "/*" + s + "*/") for s in dict.fromkeys(multi))
    single = [*strings(3), *sample(rng, 100, 4, 9), *around(WHITE + NEAR), *mixed(rng, 100, 8), "  k ", "#", "/", "//", "!"]
    yield from ((HASH, "#" + s) for s in dict.fromkeys(single))
    yield from ((SLASH, "//" + s) for s in dict.fromkeys(single))
    errors = list(dict.fromkeys([*strings(4), *sample(rng, 300, 5, 9), *mixed(rng, 300, 12)]))
    yield from ((MISSING_TOKEN + i % 3, s) for i, s in enumerate(errors))
    open_ended = ["/*" + s for s in [*strings(2), *sample(rng, 50, 3, 9), *mixed(rng, 50, 8)]]
    yield from ((UNTERMINATED, s) for s in dict.fromkeys([*open_ended, "", "/", "/*/"]))
    yield from ((TOO_SHORT, s) for s in ["/*/", "", "/", "/*", "/*/\n", "*", "\t", "a"])
    white = [c for c in strings(2) if not c.strip(" \t\n\x85")]
    yield from ((WHITESPACE, s) for s in dict.fromkeys([*white, *map(chr, WHITE), "\r\n", "\n\n\n", " " * 40]))


def large():
    """Comments of 32,000 bytes: kind, head, piece, how often it comes, tail."""
    yield MULTI_LINE, "/*", "a", 31996, "*/"
    yield MULTI_LINE, "/*", " ", 31995, "a*/"
    yield MULTI_LINE, "/*a", " ", 31994, "b*/"
    yield MULTI_LINE, "/*", "\nabc", 7999, "*/"
    yield MULTI_LINE, "/*", "\n\t a", 7999, "*/"
    yield MULTI_LINE, "/*", "\n  \x85", 6399, "a*/"
    yield MULTI_LINE, "/*", "\t", 31996, "*/"
    yield MULTI_LINE, "/*", "\t", 31993, "a\nb*/"
    yield MULTI_LINE, "/*\n", "\t", 31992, "a\nb*/"
    yield MULTI_LINE, "/*a", "\n", 31994, "b*/"
    yield MULTI_LINE, "/*", "*", 31996, "*/"
    yield MULTI_LINE, "/**", "\n *a", 7998, "\n*/"
    yield MULTI_LINE, "/**a", "\n\tb", 10664, "*/"
    yield MULTI_LINE, "/**", "\t", 31994, "a*/"
    yield MULTI_LINE, "/**a", "\n", 31993, "b*/"
    yield HASH, "#", " ", 31998, "a"
    yield HASH, "#", "a", 31999, ""
    yield SLASH, "//a", "\x85", 15998, "b"
    yield UNTERMINATED, "/*", "\n\ta", 10666, ""
    yield CUSTOM, "", "\n", 32000, ""
    yield CUSTOM, "", "\t", 32000, ""
    yield CUSTOM, "", "a", 32000, ""


def passes(kind, text):
    """Refusal 8 lets the token through."""
    if kind == MULTI_LINE:
        return len(text.encode()) >= 4 and text.startswith("/*") and text.endswith("*/")
    return text.startswith({HASH: "#", SLASH: "//"}.get(kind, ""))


def build():
    """The oracle's program that prints comment tokens."""
    oracle = os.path.join(HERE, "..", "..", "oracle")
    subprocess.run(["cargo", "build", "--release", "--offline", "--quiet", "--bin", "comments"], cwd=oracle, check=True)
    return os.path.join(oracle, "target", "release", "comments")


def decoded(data):
    """The items that the program wrote, as pairs of a kind and a text."""
    found, at = [], 0
    while at < len(data):
        kind, text = data[at], b""
        at += 1
        if kind == 1:
            n = int.from_bytes(data[at:at + 4], "little")
            text = data[at + 4:at + 4 + n]
            at += 4 + n
        found.append((kind, text))
    return found


def printed(program, asked):
    """What the original prints for each token: the items above an item and inline."""
    given = b"".join(bytes([kind]) + len(s.encode()).to_bytes(4, "little") + s.encode() for kind, s in asked)
    out = subprocess.run([program], input=given, stdout=subprocess.PIPE, check=True).stdout
    answers, at = [], 0
    while at < len(out):
        n = int.from_bytes(out[at:at + 4], "little")
        answers.append(decoded(out[at + 4:at + 4 + n]))
        at += 4 + n
    assert len(answers) == 2 * len(asked)
    return list(zip(answers[::2], answers[1::2]))


def field(s):
    return len(s).to_bytes(2, "little") + s


def encoded(items):
    return b"".join(bytes([kind, len(text)]) + text if kind == 1 else bytes([kind]) for kind, text in items)


def totals(items):
    """Records, text bytes, and a checksum over the records' words and then the text bytes."""
    words, texts = [], b""
    for kind, text in items:
        words += [kind, len(texts), len(text)] if kind == 1 else [kind, 0, 0]
        texts += text
    check = 0
    for w in [*words, *texts]:
        check = (check * FACTOR + w) % MODULUS
    return b"".join(n.to_bytes(4, "little") for n in (len(items), len(texts), check))


def case(kind, text, above, inline):
    last = AS_ABOVE if inline == above else encoded(inline)
    return field(bytes([kind])) + field(text.encode()) + field(encoded(above)) + field(last)


def recipe(kind, head, piece, times, tail, above, inline):
    made = field(bytes([kind])) + field(head.encode()) + field(piece.encode()) + field(times.to_bytes(2, "little"))
    return made + field(tail.encode()) + field(totals(above)) + field(totals(inline))


def write(name, data):
    with open(os.path.join(HERE, name), "wb") as out:
        out.write(data)


def main():
    small, big = list(tokens()), list(large())
    texts = [(kind, head + piece * n + tail) for kind, head, piece, n, tail in big]
    assert all(passes(*token) for token in small + texts) and len(set(small)) == len(small)
    assert all(len(text.encode()) in range(31990, 32001) for _, text in texts)
    answers = printed(build(), small + texts)
    data = b"".join(case(*token, *places) for token, places in zip(small, answers))
    assert len(data) <= 393216, len(data)
    write("data/vectors.bin", data)
    write("data/large.bin", b"".join(recipe(*token, *places) for token, places in zip(big, answers[len(small):])))
    counts = [(label, sum(1 for token in small if token[0] == kind)) for kind, label in LABELS.items()]
    counts += [("large tokens", len(big))]
    write("stdout", "".join(f"{label} {n}\n  agree {n}\n  differ 0\n" for label, n in counts).encode())


if __name__ == "__main__":
    main()

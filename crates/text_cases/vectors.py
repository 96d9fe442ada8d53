#!/usr/bin/env python3
"""Makes data/vectors.bin and stdout: what crate `text` is held to, from Python's own strings.

Validity is Python's strict UTF-8 decoder, trimming is str.strip over the 25 code points that Unicode lists as
White_Space, and everything else is counted here. A case is four fields, each two bytes of length and its bytes:
the operation, two arguments and the expected answer.
"""
import itertools
import os

HERE = os.path.dirname(os.path.abspath(__file__))
WHITE = [*range(0x09, 0x0E), 0x20, 0x85, 0xA0, 0x1680, *range(0x2000, 0x200B), 0x2028, 0x2029, 0x202F, 0x205F, 0x3000]
WHITE_CHARS = "".join(map(chr, WHITE))
PADDING = b"\t\n\x0c\r *"
OPERATIONS = ["is_utf8", "trim_end", "trim", "common_ws_prefix", "starts_with", "ends_with", "line_end", "line_feeds"]
NEAR = [0x08, 0x0E, 0x1C, 0x1D, 0x1E, 0x1F, 0x21, 0x84, 0x86, 0x9F, 0xA1, 0x167F, 0x1681, 0x180E, 0x1FFF, 0x200B, 0x200C]
NEAR += [0x2027, 0x202A, 0x202E, 0x2030, 0x205E, 0x2060, 0x2FFF, 0x3001, 0xFEFF, 0x10FFFF]


def is_utf8(s):
    try:
        s.decode("utf-8", "strict")
    except UnicodeDecodeError:
        return False
    return True


def trim_end(s):
    return s.decode().rstrip(WHITE_CHARS).encode()


def trim(s):
    return s.decode().strip(WHITE_CHARS).encode()


def common_ws_prefix(a, b):
    pairs = zip(a, b)
    return bytes(x for x, _ in itertools.takewhile(lambda p: p[0] == p[1] and p[0] in PADDING, pairs))


def strings(alphabet, longest):
    for n in range(longest + 1):
        for letters in itertools.product(alphabet, repeat=n):
            yield b"".join(letters)


def utf8_cases():
    yield from (bytes.fromhex(h) for h in [
        # RFC 3629, section 7
        "41e289a2ce912e", "ed959ceab5adec96b4", "e697a5e69cace8aa9e", "efbbbff0a38eb4",
        # overlong forms, surrogates, above U+10FFFF, bytes that no text has
        "c080", "c1bf", "e08080", "e09fbf", "f0808080", "f08fbfbf", "f880808080", "fc8080808080",
        "eda080", "edbfbf", "eda080edb080", "edadbfedbfbf", "f4908080", "f5808080", "f7bfbfbf", "fe", "ff", "feff", "80", "bf",
        # cut characters, and characters that others interrupt
        "c2", "e0", "e0a0", "f0", "f090", "f09080", "e282", "f09f98", "c241", "e28241", "f0908041", "e2c280", "f09f41bf", "41c2", "c28080",
        # the ends of each row of the syntax
        "00", "7f", "c280", "dfbf", "e0a080", "e0bfbf", "e18080", "ecbfbf", "ed8080", "ed9fbf", "ee8080", "efbfbf",
        "f0908080", "f0bfbfbf", "f1808080", "f3bfbfbf", "f4808080", "f48fbfbf",
    ])
    yield b""
    for lead in range(0xC0, 0x100):
        for second in (0x7F, 0x80, 0x8F, 0x90, 0x9F, 0xA0, 0xBF, 0xC0):
            yield bytes([lead, second, 0x80])
            yield bytes([lead, second, 0xBF, 0x80])


def white_cases():
    yield ""
    for c in map(chr, WHITE + NEAR):
        yield from (c, c + c, "a" + c, c + "a", c + "a" + c, "a" + c + "b", c + c + "é" + c + c, "é" + c, c + "\U0001f4a7")
    for c, d in itertools.product(map(chr, (0x20, 0x85, 0x2003, 0x3000, 0x200B)), repeat=2):
        yield from (c + d, "x" + c + d, c + d + "x", c + "x" + d)


def cases():
    for s in utf8_cases():
        yield "is_utf8", s, b"", bytes([is_utf8(s)])
    for t in white_cases():
        yield "trim_end", t.encode(), b"", trim_end(t.encode())
        yield "trim", t.encode(), b"", trim(t.encode())
    for a, b in itertools.product(list(strings([b"\t", b"*", b"a", b"\x0b"], 2)), repeat=2):
        yield "common_ws_prefix", a, b, common_ws_prefix(a, b)
    for a, b in itertools.product(list(strings([b"/", b"*"], 3)), repeat=2):
        yield "starts_with", a, b, bytes([a.startswith(b)])
        yield "ends_with", a, b, bytes([a.endswith(b)])
    for s in strings([b"\n", b"\r", b"a"], 4):
        yield "line_feeds", s, b"", bytes([s.count(b"\n")])
        for at in range(len(s) + 2):
            found = s.find(b"\n", at)
            yield "line_end", s, b"x" * at, bytes([found if found >= 0 else max(at, len(s))])


def field(s):
    return len(s).to_bytes(2, "little") + s


def tally(texts):
    valid = [s for s in texts if is_utf8(s)]
    return [
        ("  valid", len(valid)),
        ("  bytes left by trim", sum(len(trim(s)) for s in valid)),
        ("  bytes left by trim_end", sum(len(trim_end(s)) for s in valid)),
        ("  bytes of padding", sum(len(common_ws_prefix(s, s)) for s in valid)),
        ("  line feeds", sum(s.count(b"\n") for s in valid)),
    ]


def main():
    kept = list(cases())
    data = b"".join(field(bytes([OPERATIONS.index(op) + 1])) + field(a) + field(b) + field(want) for op, a, b, want in kept)
    assert len(data) <= 65536, len(data)
    with open(os.path.join(HERE, "data", "vectors.bin"), "wb") as out:
        out.write(data)
    lines = [("strings of one byte", 256), *tally([bytes([a]) for a in range(256)])]
    lines += [("strings of two bytes", 65536), *tally([bytes(p) for p in itertools.product(range(256), repeat=2)])]
    for op in OPERATIONS:
        count = sum(1 for case in kept if case[0] == op)
        lines += [(op, count), ("  agree", count)]
    with open(os.path.join(HERE, "stdout"), "w") as out:
        out.writelines(f"{label} {n}\n" for label, n in lines)


if __name__ == "__main__":
    main()

#!/usr/bin/env python3
"""Makes data/vectors.bin, data/damaged.bin and stdout: what crate `tree` is held to.

The answers are worked out here, from the scope paper alone: the nine tests over a list of elements, and the tree by a
stack of open nodes. Validity of a text is Python's strict UTF-8 decoder.

data/vectors.bin: cases of four fields, each two bytes of length and its bytes: the operation, an image, its arguments and the
expected answer. data/damaged.bin: an image; a field with the answers for each shorter beginning of it; for each of its bytes a
field with the answers for all 256 values at that place. An answer is three bytes: the refusal's number, or 0, and the element.
"""
import os
import struct

HERE = os.path.dirname(os.path.abspath(__file__))
SOURCE, EXPR, NAME, WS, MULTI, HASH, SLASH, BLOCK, NUMBER, IDENT = 1, 2, 43, 64, 65, 68, 69, 82, 87, 90


def image(elements, n=None, b=None):
    """The bytes of an image of (kind, level, text) or (kind, level, text, length) elements."""
    texts = b"".join(e[2] for e in elements)
    out = struct.pack("<I", len(elements) if n is None else n)
    for kind, level, text, *size in elements:
        out += struct.pack("<HHI", kind, level, *(size or [len(text)]))
    return out + struct.pack("<I", len(texts) if b is None else b) + texts


def is_utf8(s):
    try:
        s.decode("utf-8", "strict")
    except UnicodeDecodeError:
        return False
    return True


def misformed(kind, s):
    if kind == HASH:
        return s[:1] != b"#"
    if kind == SLASH:
        return s[:2] != b"//"
    return kind == MULTI and (len(s) < 4 or s[:2] != b"/*" or s[-2:] != b"*/")


def read(data):
    """(N, B, elements) with texts as far as they go, or None if N or B cannot be read."""
    if len(data) < 4:
        return None
    n = struct.unpack_from("<I", data)[0]
    if len(data) < 8 + 8 * n:
        return None
    b = struct.unpack_from("<I", data, 4 + 8 * n)[0]
    elements, at = [], 8 + 8 * n
    for i in range(n):
        kind, level, size = struct.unpack_from("<HHI", data, 4 + 8 * i)
        elements.append((kind, level, size, data[at:at + size]))
        at += size
    return n, b, elements


def refusal(data):
    """The number and the element of the refusal, or (0, 0)."""
    got = read(data)
    if got is None or len(data) != 8 + 8 * got[0] + got[1]:
        return 1, 0
    n, b, es = got
    if n == 0 or n > 4096 or b > 32000:
        return 2, 0
    known = set(range(1, 57)) | set(range(64, 108))
    for i, (kind, _, _, _) in enumerate(es):
        if kind not in known:
            return 3, i
    open_nodes = []
    for i, (kind, level, _, _) in enumerate(es):
        if i == 0:
            wrong = (kind, level) != (SOURCE, 0)
        else:
            before = es[i - 1]
            wrong = kind == SOURCE or level == 0 or level > 200 or level > before[1] + 1
            wrong = wrong or (open_nodes[level - 1] >= 64)
        if wrong:
            return 4, i
        open_nodes[level:] = [kind]
    for i, (kind, _, size, _) in enumerate(es):
        if kind < 64 and size != 0:
            return 5, i
    if sum(e[2] for e in es) != b:
        return 5, n
    for number, test in (
        (6, lambda e: e[0] >= 64 and not is_utf8(e[3])),
        (7, lambda e: e[0] == BLOCK),
        (8, lambda e: misformed(e[0], e[3])),
    ):
        for i, e in enumerate(es):
            if test(e):
                return number, i
    for i, e in enumerate(es):
        if e[0] == NAME and all(es[j][0] != IDENT for j in children(es, i)):
            return 9, i
    return 0, 0


def ends(es):
    """Where the subtree of each element ends: a node is closed by the next element that is no deeper."""
    out, open_nodes = [len(es)] * len(es), []
    for i, e in enumerate(es):
        while open_nodes and es[open_nodes[-1]][1] >= e[1]:
            out[open_nodes.pop()] = i
        open_nodes.append(i)
    return out


def children(es, i):
    return [j for j in range(i + 1, ends(es)[i]) if es[j][1] == es[i][1] + 1]


def table(data):
    """Kind, end of the subtree and place of the text in the image for each element, and an entry for the end."""
    n, _, es = read(data)
    out, at = [], 8 + 8 * n
    for e, end in zip(es, ends(es)):
        out += [e[0], end, at]
        at += e[2]
    return out + [0, n, at]


def joined(es, i):
    return b"".join(e[3] for e in es[i:ends(es)[i]])


def places(data, node, wanted):
    """The children of a node that are wanted, by a test of kind and joined text."""
    es = read(data)[2]
    return [j for j in children(es, node) if wanted(es[j][0], joined(es, j))]


GOOD = [(SOURCE, 0, b""), (EXPR, 1, b""), (8, 2, b""), (NAME, 3, b""), (IDENT, 4, "é".encode()), (WS, 1, b" "),
        (HASH, 1, b"#k"), (MULTI, 1, b"/**/"), (SLASH, 1, b"//")]


def deep(levels, more=0):
    return [(SOURCE, 0, b"")] + [(EXPR, k, b"") for k in range(1, levels + 1)] + [(WS, levels, b" ")] * more


def balanced(n):
    """n elements in preorder, each node with up to two children."""
    out = []

    def put(level, size):
        out.append((SOURCE if level == 0 else EXPR, level, b""))
        left = (size - 1) // 2
        for part in (left, size - 1 - left):
            if part:
                put(level + 1, part)
    put(0, n)
    return out


def comb(n):
    """A chain to level 199 whose every node has children behind it: the deepest walks to the end of a subtree."""
    out = deep(199)
    level = 200
    while len(out) < n:
        out.append((WS, level, b""))
        level = level - 1 if level > 1 else 200
        if level == 200:
            out += [(EXPR, k, b"") for k in range(1, 200)]
    return out[:n]


def images():
    one = [(SOURCE, 0, b"")]
    # 1: lengths one short and one long, counts at their limits
    for n in (0, 3, 4, 7, 8, 9):
        yield bytes(n)
    yield b"\xff\xff\xff\xff"
    yield b"\xff\xff\xff\xff" + bytes(12)
    for e in (GOOD, one):
        whole = image(e)
        yield from (whole, whole[:-1], whole + b"\0")
        yield from (image(e, b=0xFFFFFFFF), image(e, n=0xFFFFFFFF), image(e, n=len(e) + 1), image(e, n=len(e) - 1))
    # 2: N 0, 1, 4,096, 4,097 and B 32,000, 32,001
    yield image([])
    yield image([], b=5) + b"12345"
    for n in (4096, 4097):
        yield image(one + [(WS, 1, b"")] * (n - 1))
    for b in (32000, 32001):
        yield image(one + [(WS, 1, b" " * b)])
    # 3: the borders of the tables, two offenders, and an offender of 4 before one of 3
    for kind in (0, 1, 2, 55, 56, 57, 63, 64, 65, 106, 107, 108, 255, 256, 320, 65535):
        yield image(one + [(kind, 1, b"")])
        yield image([(kind, 0, b"")])
    yield image(one + [(57, 1, b""), (63, 1, b"")])
    yield image(one + [(WS, 3, b""), (57, 1, b"")])
    # 4
    for level in (0, 1, 2, 199, 200, 201, 65535):
        yield image(one + [(WS, level, b"")])
        yield image([(SOURCE, level, b"")])
    for levels in (199, 200, 201):
        yield image(deep(levels))
        yield image(deep(levels, 3))
    for extra in ([(SOURCE, 1, b"")], [(WS, 1, b""), (WS, 2, b"")], [(WS, 1, b""), (WS, 3, b"")], [(WS, 1, b""), (WS, 1, b"")],
                  [(EXPR, 1, b""), (EXPR, 2, b""), (WS, 1, b""), (EXPR, 2, b"")], [(EXPR, 1, b""), (WS, 9, b""), (SOURCE, 1, b"")],
                  [(EXPR, 1, b""), (EXPR, 2, b""), (EXPR, 3, b""), (WS, 1, b""), (EXPR, 1, b""), (WS, 3, b"")]):
        yield image(one + extra)
    # 5: nodes with a length, sums that are one off, sums past 2^32, and both
    for size in (0, 1, 2, 0xFFFFFFFF):
        yield image([(SOURCE, 0, b"", size), (WS, 1, b"x")])
        yield image(one + [(EXPR, 1, b"", size), (WS, 1, b"x")])
        yield image(one + [(WS, 1, b"x", size)])
    yield image(one + [(WS, 1, b"xx", 0xFFFFFFFF), (WS, 1, b"", 3)])
    yield image(one + [(WS, 1, b"xx", 9), (EXPR, 1, b"", 1)])
    # 6: characters cut by a token's border, nodes without text
    for a, b in ((b"\xc3\xa9", b""), (b"\xc3", b"\xa9"), (b"", b"\xc3\xa9"), (b"\xff", b"\xff"), (b"a", b"\xed\xa0\x80"), (b"\xf4\x8f\xbf\xbf", b"\xf4\x90\x80\x80")):
        yield image(one + [(WS, 1, a), (70, 1, b)])
        yield image(one + [(WS, 1, a), (BLOCK, 1, b)])
    # 7
    for kind in (81, 82, 83):
        yield image(one + [(kind, 1, b"|||")])
        yield image(one + [(EXPR, 1, b""), (kind, 2, b""), (HASH, 1, b""), (kind, 1, b"")])
    # 8
    texts = [b"", b"#", b"/", b"//", b"/#", b"# k", b"/*", b"/*/", b"/**", b"/**/", b"/***/", b"*/", b"/* */ */", b"/*a", b" /**/", b"/**/ ", b"#*//", b"////"]
    for text in texts:
        for kind in (64, MULTI, 66, 67, HASH, SLASH, 70):
            yield image(one + [(kind, 1, text)])
    yield image(one + [(MULTI, 1, b"/**/"), (HASH, 1, b"x"), (SLASH, 1, b"x")])
    # 9: no child, an identifier only in depth, only behind, as the last child, of no bytes; names in names
    name = (NAME, 1, b"")
    for extra in ([name], [name, (IDENT, 2, b"a")], [name, (IDENT, 1, b"a")], [name, (EXPR, 2, b""), (IDENT, 3, b"a")], [name, (WS, 2, b" "), (IDENT, 2, b"")],
                  [name, (EXPR, 2, b""), (IDENT, 3, b"a"), (IDENT, 2, b"b")], [name, (89, 2, b"a")], [name, (91, 2, b"a")],
                  [name, (NAME, 2, b""), (IDENT, 3, b"a")], [name, (NAME, 2, b""), (IDENT, 3, b"a"), (IDENT, 2, b"a")],
                  [name, (IDENT, 2, b"a"), (NAME, 2, b""), name, (IDENT, 2, b"a")], [name, (WS, 1, b""), (IDENT, 1, b"a")]):
        yield image(one + extra)
    # two tests that both fail
    yield image(one + [(NAME, 1, b""), (HASH, 1, b"x"), (BLOCK, 1, b"\xff")])
    yield image(one + [(NAME, 1, b""), (HASH, 1, b"x"), (BLOCK, 1, b"|||")])
    yield image(one + [(NAME, 1, b""), (HASH, 1, b"x")])
    yield image(one + [(BLOCK, 2, b""), (57, 1, b"")])


def field(s):
    return struct.pack("<H", len(s)) + s


def answer(data):
    number, element = refusal(data)
    return struct.pack("<BH", number, element)


def trees():
    yield image(GOOD)
    yield image([(SOURCE, 0, b"")])
    yield image(deep(200, 3))
    yield image(balanced(300))
    yield image(comb(600))
    yield image([(SOURCE, 0, b""), (EXPR, 1, b""), (WS, 2, b"ab"), (EXPR, 2, b""), (WS, 3, b"c"), (WS, 1, b"d"), (EXPR, 1, b"")])
    # a field with signs: `-`, then `+` as operators, a joined `+`, two Exprs, members around an assert
    yield image([(SOURCE, 0, b""), (31, 1, b""), (41, 2, b""), (93, 2, b"-"), (92, 2, b"+"), (91, 2, b"+"), (107, 2, b"+"), (EXPR, 2, b""),
                 (WS, 3, b"+"), (EXPR, 2, b""), (28, 2, b""), (29, 2, b""), (30, 2, b""), (29, 2, b""), (94, 2, b","), (95, 2, b";"), (93, 2, b"++"), (93, 2, b"")])


CLASSES = [(2, 2, 0), (3, 17, 0), (28, 31, 0), (28, 31, 29), (64, 69, 0), (91, 93, 92), (94, 95, 0), (95, 95, 0), (43, 43, 0)]


def cases():
    for data in images():
        yield 1, data, b"", answer(data)
    for data in trees():
        assert refusal(data) == (0, 0)
        yield 2, data, b"", b"".join(struct.pack("<H", x) for x in table(data))
    for data in (t for t in trees() if len(t) < 400):
        es = read(data)[2]
        for node in range(min(len(es), 12)):
            for lo, hi, but in CLASSES:
                found = places(data, node, lambda k, s: lo <= k <= hi and k != but)
                args = struct.pack("<HBBB", node, lo, hi, but)
                for n in (0, 1, 2):
                    yield 3, data, args + bytes([n]), struct.pack("<H", found[n] + 1 if n < len(found) else 0)
                yield 4, data, args + b"\0", struct.pack("<H", found[-1] + 1 if found else 0)
            found = places(data, node, lambda k, s: 91 <= k <= 93 and s == b"+")
            yield 5, data, struct.pack("<H", node), struct.pack("<H", found[0] + 1 if found else 0)


def damaged(data):
    out = field(data) + field(b"".join(answer(data[:p]) for p in range(len(data))))
    for p in range(len(data)):
        out += field(b"".join(answer(data[:p] + bytes([v]) + data[p + 1:]) for v in range(256)))
    return out


def main():
    all_cases = list(cases())
    os.makedirs(os.path.join(HERE, "data"), exist_ok=True)
    with open(os.path.join(HERE, "data", "vectors.bin"), "wb") as f:
        for op, data, args, want in all_cases:
            f.write(field(bytes([op])) + field(data) + field(args) + field(want))
    good = image(GOOD)
    with open(os.path.join(HERE, "data", "damaged.bin"), "wb") as f:
        f.write(damaged(good))
    count = {op: sum(c[0] == op for c in all_cases) for op in range(1, 6)}
    with open(os.path.join(HERE, "stdout"), "w") as f:
        for op, label in enumerate(("refusals", "indexes", "n-th parts", "last parts", "plus signs"), 1):
            f.write(f"{label} {count[op]}\n  agree {count[op]}\n")
        f.write(f"beginnings {len(good)}\n  agree {len(good)}\n")
        f.write(f"bytes changed {len(good)}\n  agree for every value {256 * len(good)}\n")


if __name__ == "__main__":
    main()

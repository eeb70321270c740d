#!/usr/bin/env python3
"""Writes crates/normal_examples/stdin, faces to normalize, and crates/normal_examples/stdout, what is answered.

usage: cases.py                    writes both files
       cases.py against PROGRAM    gives a program the input and compares what it prints

In stdin a case is three numbers of four bytes, the lowest first (the lengths of its label, of the lent slice and of the face, which
need not be one), then the label and the face; no label is empty. In stdout it is a line: the label, ` length N` or ` refused N`, a
colon, and every byte of the lent slice in decimal with a space before it; before the call each of them is 255.
The model follows document 01 alone and shares nothing with the crates."""
import itertools
import pathlib
import subprocess
import sys

ROOT = pathlib.Path(__file__).resolve().parents[2]
FILL = 255
MOST_NODES = 511
LAST_DIMENSION = 254
MOST_CLAUSES = 256

sys.setrecursionlimit(20000)


class Refused(Exception):
    """A refusal's number."""


# The model. A face is its kind byte and what follows it: nothing, a dimension, or two faces.
FF, FT, AT0, AT1, FAND, FOR = range(6)


def read(data):
    """Exactly one face, by a stack of what is still open."""
    open_nodes, at, whole = [], 0, None
    while whole is None:
        if at >= len(data) or data[at] > FOR:
            raise Refused(2)
        kind = data[at]
        at += 1
        if kind in (FAND, FOR):
            open_nodes.append([kind])
            continue
        face = (kind,)
        if kind in (AT0, AT1):
            if at >= len(data):
                raise Refused(2)
            face = (kind, data[at])
            at += 1
        while open_nodes:
            open_nodes[-1].append(face)
            if len(open_nodes[-1]) < 3:
                break
            face = tuple(open_nodes.pop())
        else:
            whole = face
    if at < len(data):
        raise Refused(2)
    return whole


def encode(face):
    if face[0] in (FAND, FOR):
        return bytes(face[:1]) + encode(face[1]) + encode(face[2])
    return bytes(face)


def nodes(face):
    return 1 + sum(map(nodes, face[1:])) if face[0] in (FAND, FOR) else 1


def dimensions(face):
    if face[0] in (FAND, FOR):
        return dimensions(face[1]) | dimensions(face[2])
    return set(face[1:])


def pruned(clauses):
    """Sorted, without doubles and supersets. A literal is its dimension and side, so that sorted literals compare as they should."""
    if len(clauses) > MOST_CLAUSES:
        raise Refused(5)
    least = {clause for clause in clauses if not any(other < clause for other in clauses)}
    return sorted(least, key=sorted)


def consistent(clause):
    return len({dimension for dimension, _ in clause}) == len(clause)


def clauses(face):
    kind = face[0]
    if kind == FF:
        return []
    if kind == FT:
        return [frozenset()]
    if kind in (AT0, AT1):
        return [frozenset({(face[1], kind - AT0)})]
    left, right = clauses(face[1]), clauses(face[2])
    if kind == FOR:
        return pruned(left + right)
    return pruned([a | b for a, b in itertools.product(left, right) if consistent(a | b)])


def folded(kind, parts, empty):
    """Nested to the left."""
    if not parts:
        return (empty,)
    whole = parts[0]
    for part in parts[1:]:
        whole = (kind, whole, part)
    return whole


def normal(data, room):
    """The bytes of the normal form."""
    face = read(data)
    if nodes(face) > MOST_NODES:
        raise Refused(3)
    if max(dimensions(face), default=0) > LAST_DIMENSION:
        raise Refused(4)
    parts = [folded(FAND, [(AT0 + side, n) for n, side in sorted(clause)], FT) for clause in clauses(face)]
    result = folded(FOR, parts, FF)
    if nodes(result) > MOST_NODES:
        raise Refused(5)
    if len(encode(result)) > room:
        raise Refused(6)
    return encode(result)


def answered(label, data, room):
    """The line of a case."""
    try:
        front = normal(data, room)
        said = f"length {len(front)}"
    except Refused as refusal:
        front, said = b"", f"refused {refusal}"
    left = front + bytes([FILL]) * (room - len(front))
    return f"{label} {said}:" + "".join(f" {byte}" for byte in left) + "\n"


# The faces, as in document 01: n for at0 n, n' for at1 n.
ff, ft = (FF,), (FT,)


def zero(n):
    return (AT0, n)


def one(n):
    return (AT1, n)


def fand(*parts):
    return folded(FAND, parts, FT)


def or_(*parts):
    return folded(FOR, parts, FF)


def to_the_right(kind, parts):
    whole = parts[-1]
    for part in reversed(parts[:-1]):
        whole = (kind, part, whole)
    return whole


def zeros(first, count):
    return [zero(n) for n in range(first, first + count)]


def choices(count):
    """All choices of sides of so many dimensions."""
    return fand(*(or_(zero(n), one(n)) for n in range(count)))


def squared(m, n, opposite=0):
    """m literals times n, of which some are the opposites of the first m and the others the first m again."""
    return fand(or_(*zeros(0, m)), or_(*(one(i) for i in range(opposite)), *zeros(0, n - opposite)))


def examples():
    """Document 01's, and the leaves."""
    yield "0 fand 0'", fand(zero(0), one(0))
    yield "0 for 0'", or_(zero(0), one(0))
    yield "0' for (0' fand 1)", or_(one(0), fand(one(0), zero(1)))
    for name, face in (("ff", ff), ("ft", ft), ("0", zero(0)), ("0'", one(0)), ("254", zero(254)), ("254'", one(254))):
        yield name, face
    yield "0' fand 0", fand(one(0), zero(0))
    for (a, x), (b, y) in itertools.product((("ff", ff), ("ft", ft), ("0", zero(0))), repeat=2):
        yield f"{a} fand {b}", fand(x, y)
        yield f"{a} for {b}", or_(x, y)


def orders():
    """Dimension first, zero side first, a prefix first, and not by length."""
    yield "1 for 0", or_(zero(1), zero(0))
    yield "0' for 0", or_(one(0), zero(0))
    yield "1 for 0'", or_(zero(1), one(0))
    yield "10 for 9' for 254 for 128 for 127'", or_(zero(10), one(9), zero(254), zero(128), one(127))
    yield "2' fand 1 fand 0' fand 254", fand(one(2), zero(1), one(0), zero(254))
    yield "1 for (2 fand 0)", or_(zero(1), fand(zero(2), zero(0)))
    yield "(0 fand 1') for (0 fand 1)", or_(fand(zero(0), one(1)), fand(zero(0), zero(1)))
    yield "(0 fand 2) for (0 fand 1' fand 3)", or_(fand(zero(0), zero(2)), fand(zero(0), one(1), zero(3)))
    yield "(0 fand 2 fand 3) for (0 fand 1)", or_(fand(zero(0), zero(2), zero(3)), fand(zero(0), zero(1)))
    yield "1 for (0 fand 1') for (0 fand 1) for (0 fand 2)", or_(zero(1), fand(zero(0), one(1)), fand(zero(0), zero(1)), fand(zero(0), zero(2)))
    yield "(0 fand 1) for 0 for (0 fand 1')", or_(fand(zero(0), zero(1)), zero(0), fand(zero(0), one(1)))
    yield "(0 fand 254) for (0 fand 1 fand 254) for 254", or_(fand(zero(0), zero(254)), fand(zero(0), zero(1), zero(254)), zero(254))


def folds():
    """To the left, from any nesting; products, doubles, supersets, clashes."""
    yield "0 for (1 for (2 for 3))", to_the_right(FOR, zeros(0, 4))
    yield "0 fand (1 fand (2 fand 3))", to_the_right(FAND, zeros(0, 4))
    yield "(0 fand 1 fand 2) for (3 fand 4 fand 5) for (6 fand 7 fand 8)", or_(fand(*zeros(0, 3)), fand(*zeros(3, 3)), fand(*zeros(6, 3)))
    yield "(0 for 1) fand (2 for 3')", fand(or_(zero(0), zero(1)), or_(zero(2), one(3)))
    yield "(0 for 1) fand (0 for 1)", squared(2, 2)
    yield "(0 for 0') fand (0 for 0')", fand(choices(1), choices(1))
    yield "(0 for 1) fand (0' for 1')", fand(or_(zero(0), zero(1)), or_(one(0), one(1)))
    yield "(0 for 1) fand (1 for 2) fand (2 for 0)", fand(*(or_(zero(a), zero(b)) for a, b in ((0, 1), (1, 2), (2, 0))))
    yield "all choices of 0, 1 and 2", choices(3)
    yield "0 for 0 for 0", or_(*[zero(0)] * 3)
    yield "(0 for ft) fand 1", fand(or_(zero(0), ft), zero(1))
    yield "(0 fand ff) for 1", or_(fand(zero(0), ff), zero(1))
    yield "(0 for 1) fand 0'", fand(or_(zero(0), zero(1)), one(0))


def product(m, n):
    """m literals times n others: all clauses stay."""
    return fand(or_(*zeros(0, m)), or_(*zeros(m, n)))


def around(label, face):
    """A face, and where the outcome is dropped or kept."""
    yield label, face
    yield f"({label}) fand ff", fand(face, ff)
    yield f"ff fand ({label})", fand(ff, face)
    yield f"({label}) fand ft", fand(face, ft)


def lists():
    """Lists before pruning of 255 to 257 clauses, at a fand and at a for."""
    for m, n, opposite in ((15, 17, 0), (16, 16, 0), (16, 17, 15), (16, 17, 0)):
        yield from around(f"{m * n - opposite} clauses at a fand", squared(m, n, opposite))
    yield from around("256 clauses at a for", or_(product(15, 17), zero(200)))
    yield from around("257 clauses at a for", or_(product(16, 16), zero(200)))
    yield "255 clauses for ft", or_(product(15, 17), ft)
    yield "256 clauses for ft", or_(product(16, 16), ft)
    yield "ft for 256 clauses", or_(ft, product(16, 16))
    yield "(128 clauses for the same) fand ff", fand(or_(choices(7), choices(7)), ff)
    yield "(128 clauses for (the same for 200)) fand ff", fand(or_(choices(7), or_(choices(7), zero(200))), ff)
    yield "(256 clauses of 65536 pairs) fand ff", fand(choices(8), choices(8), ff)
    yield "(512 clauses of 65536 pairs) fand ff", fand(choices(8), fand(*(or_(zero(n), one(n)) for n in range(1, 9))), ff)
    yield "256 clauses of two literals", product(16, 16)


def results():
    """256 and 257 literals in the normal form: 511 and 513 nodes."""
    whole, half, square = fand(*zeros(0, 255)), fand(zero(0), or_(*zeros(1, 128))), fand(*zeros(0, 15), or_(*zeros(15, 16)))
    yield "255 literals and 0' under for", or_(*zeros(0, 255), one(0))
    yield "the same to the right, downwards", to_the_right(FOR, [one(0), *reversed(zeros(0, 255))])
    yield "255 literals under fand", whole
    yield "(255 literals under fand) for 0'", or_(whole, one(0))
    yield "255 literals and 0' under fand", fand(*zeros(0, 255), one(0))
    yield "128 clauses of two literals", half
    yield "(128 clauses of two literals) for 200", or_(half, zero(200))
    yield "16 clauses of 16 literals", square
    yield "(16 clauses of 16 literals) for 200", or_(square, zero(200))
    yield "256 times ft under fand", fand(*[ft] * 256)
    yield "256 times ff under for, to the right", to_the_right(FOR, [ff] * 256)


def operands():
    """Bytes that are not let in, and which question comes first."""
    yield "no bytes", b""
    for name, data in (("at0 alone", [2]), ("fand and one part", [4, 1]), ("ft and a byte", [1, 0]), ("byte 6", [6]), ("byte 255", [255])):
        yield name, bytes(data)
    for name, data in (("i0", [16]), ("dim 0", [18, 0]), ("0 fand i1", [4, 2, 0, 17])):
        yield name, bytes(data)
    yield "255", encode(zero(255))
    yield "0 for 255'", encode(or_(zero(0), one(255)))
    many = or_(*[ft] * 257)
    yield "513 nodes", encode(many)
    yield "513 nodes and a byte", encode(many) + b"\0"
    yield "513 nodes without the last", encode(many)[:-1]
    yield "513 nodes with 255", encode(or_(*[zero(255)] * 257))
    yield "513 nodes with 272 clauses", encode(or_(squared(16, 17), *[ff] * 224))
    yield "511 nodes with 272 clauses", encode(or_(squared(16, 17), *[ff] * 223))
    yield "511 nodes with 240 clauses", encode(or_(squared(15, 16), *[ff] * 225))
    yield "255 and 272 clauses", encode(fand(squared(16, 17), zero(255)))


def rooms():
    """Lent slices: exact, one byte less, none, more; 5 before 6."""
    three = or_(zero(0), one(0), fand(zero(1), one(2)))
    for room in (10, 11, 12, 20, 1, 0):
        yield f"0 for 0' for (1 fand 2') into {room} bytes", encode(three), room
    for name, face in (("ff", ff), ("ft", ft), ("0", zero(0)), ("257 clauses", squared(16, 17, 15)), ("272 clauses", squared(16, 17))):
        for room in (0, 1, 2):
            yield f"{name} into {room} bytes", encode(face), room
    largest = or_(*zeros(0, 255), one(0))
    for room in (766, 767):
        yield f"255 literals and 0' under for into {room} bytes", encode(largest), room
    for room in (0, 767, 770):
        yield f"513 nodes of a result into {room} bytes", encode(or_(fand(zero(0), or_(*zeros(1, 128))), zero(200))), room


def room_for(data):
    """Two bytes more than the result needs, or four where there is none."""
    try:
        return len(normal(data, 1024)) + 2
    except Refused:
        return 4


def cases():
    """Labels, bytes and the lengths of lent slices."""
    faces = itertools.chain(examples(), orders(), folds(), lists(), results())
    bare = itertools.chain(((label, encode(face)) for label, face in faces), operands())
    return [(label, data, room_for(data)) for label, data in bare] + list(rooms())


def given(table):
    """All of stdin."""
    out = bytearray()
    for label, data, room in table:
        text = label.encode()
        for n in (len(text), room, len(data)):
            out.extend(n.to_bytes(4, "little"))
        out.extend(text + data)
    return bytes(out)


def write():
    table = cases()
    folder = ROOT / "crates/normal_examples"
    folder.mkdir(exist_ok=True)
    stdin, stdout = given(table), "".join(answered(*case) for case in table)
    (folder / "stdin").write_bytes(stdin)
    (folder / "stdout").write_text(stdout)
    print(f"{len(table)} cases, {len(stdin)} bytes in, {len(stdout)} bytes out")


def against(program):
    table = cases()
    said = subprocess.run([program], input=given(table), stdout=subprocess.PIPE, check=True).stdout.decode()
    lines = said.splitlines(keepends=True)
    differences = abs(len(lines) - len(table))
    for line, case in zip(lines, table):
        if line != answered(*case):
            differences += 1
            print(f"differs: {line}expected: {answered(*case)}", end="")
    print(f"{len(table)} cases, differences: {differences}")
    return differences > 0


def main():
    words = sys.argv[1:]
    if not words:
        write()
    elif len(words) == 2 and words[0] == "against":
        sys.exit(against(words[1]))
    else:
        sys.exit(__doc__)


if __name__ == "__main__":
    main()

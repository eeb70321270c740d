#!/usr/bin/env python3
"""Writes crates/repeat_examples/stdin and stdout, and the files that the programs repeats and stepdesk are run on.

The input: how many cases there are; for each its name and two ledgers. A name is its length and its bytes. A ledger is how
many bytes it has before zeros, how many zeros follow, and those bytes. Numbers have four bytes, the lowest first.
What is to be printed comes from the model below, which is written from document 01 alone."""
import pathlib

ROOT = pathlib.Path(__file__).resolve().parents[2]
LONGEST = 1048576

# The kinds from 1 on: predicate, and the reference counts of its rules in document 01's order.
RULES = [
    ("lt", "01"), ("le", "01"), ("interval", "001122"), ("face", "001122"), ("member", "01"), ("take", "01"),
    ("cover", "011223211"), ("entails", "3"), ("boundary", "000122"), ("local", "33"), ("fforall", "0001101122"),
    ("ishift", "0011122"), ("isubst", "00101122"), ("fshift", "001122"), ("fsubst", "002222"),
]  # fmt: skip
KINDS = [(p, int(n)) for p, counts in RULES for n in counts]
assert len(KINDS) == 75

# Operands: n a number, k an index, f a face, i an interval, c a context, e i0 or i1.
OPERANDS = dict(
    lt="nn", le="nn", interval="ni", face="nf", member="fc", take="cfc", cover="cf", entails="nff", boundary="iff",
    local="nfie", fforall="fkf", ishift="iki", isubst="ikii", fshift="fkf", fsubst="fkif",
)  # fmt: skip

# How many formulas follow a kind byte, and the kinds that a dimension follows.
FACES = {0: 0, 1: 0, 2: 0, 3: 0, 4: 2, 5: 2}
INTERVALS = {16: 0, 17: 0, 18: 0, 19: 1, 20: 2, 21: 2}
LITERALS = {2, 3, 18}


class Ill(Exception):
    """The bytes are no ledger."""


class Bytes:
    """Bytes that are read from the front."""

    def __init__(self, content):
        self.left = content

    def take(self, n):
        if len(self.left) < n:
            raise Ill
        out, self.left = self.left[:n], self.left[n:]
        return out

    def number(self, width):
        return int.from_bytes(self.take(width), "little")

    def formula(self, parts):
        """The nodes of a formula of the sort whose kinds have so many parts; every dimension is at most 254."""
        pending, nodes = 1, 0
        while pending:
            kind = self.number(1)
            if kind not in parts:
                raise Ill
            if kind in LITERALS and self.number(1) > 254:
                raise Ill
            pending += parts[kind] - 1
            nodes += 1
        if nodes > 511:
            raise Ill
        return nodes

    def operand(self, field):
        if field == "n":
            self.take(1)
        elif field == "k":
            if self.number(1) > 254:
                raise Ill
        elif field == "f":
            self.formula(FACES)
        elif field == "i":
            self.formula(INTERVALS)
        elif field == "e":
            if self.number(1) not in (16, 17):
                raise Ill
        elif sum(self.formula(FACES) for _ in range(self.number(2))) > 511:
            raise Ill


def body(content, step):
    """Predicate and operand bytes of a step."""
    content = Bytes(content)
    kind = content.number(2)
    if not 1 <= kind <= 75:
        raise Ill
    predicate, references = KINDS[kind - 1]
    for _ in range(references):
        if content.number(4) >= step:
            raise Ill
    operands = content.left
    for field in OPERANDS[predicate]:
        content.operand(field)
    if content.left:
        raise Ill
    return predicate, operands


def steps(ledger):
    if not 4 <= len(ledger) <= LONGEST:
        raise Ill
    content = Bytes(ledger)
    records = Bytes(content.take(content.number(4)))
    if any(content.left):
        raise Ill
    out = []
    while records.left:
        out.append(body(records.take(records.number(4)), len(out)))
    return out


def answer(l, m):
    try:
        l, m = steps(l), steps(m)
    except Ill:
        return "refused 1"
    if l and m and l[-1][0] == m[-1][0] == "entails" and l[-1][1] == m[-1][1]:
        return "repeats"
    return "fresh"


# Ledgers ---------------------------------------------------------------------------------------


def little(n, width=4):
    return n.to_bytes(width, "little")


def record(kind, references, operands):
    content = little(kind, 2) + b"".join(map(little, references)) + bytes(operands)
    return little(len(content)) + content


def ledger(*records, zeros=0):
    content = b"".join(records)
    return little(len(content)) + content + bytes(zeros)


FF, FT = b"\x00", b"\x01"


def at0(n):
    return bytes([2, n])


def both(a, b):
    return b"\x04" + a + b


def either(a, b):
    return b"\x05" + a + b


def entails(d, a, b, references=(2, 3, 4)):
    return record(30, references, bytes([d]) + a + b)


# The steps of document 01's example before its claim, that (at0 z) implies ft over 1.
BEFORE = [
    record(1, [], [0, 1]),
    record(7, [0], [1, 18, 0]),
    record(13, [1], [1, 2, 0]),
    record(12, [], [1, 1]),
    record(21, [], [1, 0, 2, 0, 1]),
]
CLAIM = entails(1, at0(0), FT)
EXAMPLE = ledger(*BEFORE, CLAIM)
# The same claim behind other steps, which are numbered otherwise.
OTHER = ledger(
    record(3, [], [0, 7]),
    record(12, [], [1, 1]),
    record(21, [], [1, 0, 2, 0, 1]),
    record(1, [], [0, 1]),
    record(7, [3], [1, 18, 0]),
    record(13, [4], [1, 2, 0]),
    entails(1, at0(0), FT, (5, 1, 2)),
    zeros=40,
)
EMPTY = ledger()
NO_CLAIM = ledger(*BEFORE)
LARGE = either(both(at0(254), FF), FT)
for i in range(253):
    LARGE = either(LARGE, at0(i))


def ending(*last):
    """A ledger that ends in these steps, which refer to what stands before them and need not follow."""
    return ledger(*BEFORE, *last)


def spoilt(content, place, byte):
    return content[:place] + bytes([byte]) + content[place + 1 :]


LAST = len(EXAMPLE) - len(CLAIM)
ILL = {
    "no bytes": b"",
    "three bytes": bytes(3),
    "a byte too long": EXAMPLE + bytes(LONGEST + 1 - len(EXAMPLE)),
    "L beyond the end": spoilt(EXAMPLE, 0, EXAMPLE[0] + 1),
    "L within a record": spoilt(EXAMPLE, 0, EXAMPLE[0] - 1),
    "a byte behind the records": EXAMPLE + b"\x00\x01",
    "a record cut short": spoilt(EXAMPLE, LAST, CLAIM[0] - 1),
    "a record too long": spoilt(EXAMPLE, LAST, CLAIM[0] + 1),
    "kind 0": spoilt(EXAMPLE, LAST + 4, 0),
    "kind 76": spoilt(EXAMPLE, LAST + 4, 76),
    "kind 286": spoilt(EXAMPLE, LAST + 5, 1),
    "its own number referred to": ending(entails(1, at0(0), FT, (2, 3, 5))),
    "two references": ending(record(30, [2, 3], bytes([1]) + at0(0) + FT)),
    "one face": ending(record(30, [2, 3, 4], bytes([1]) + at0(0))),
    "an interval for a face": ending(entails(1, b"\x10", FT)),
    "dimension 255": ending(entails(1, at0(255), FT)),
    "513 nodes": ending(entails(1, either(LARGE, FF), FT)),
    "an ill-formed step before the claim": ledger(record(1, [], [0]), *BEFORE, CLAIM),
}

PAIRS = {
    "equal ledgers": (EXAMPLE, EXAMPLE),
    "the same claim behind other steps": (EXAMPLE, OTHER),
    "more zeros": (EXAMPLE, EXAMPLE + bytes(100)),
    "a ledger of 1,048,576 bytes": (EXAMPLE, EXAMPLE + bytes(LONGEST - len(EXAMPLE))),
    "other references": (EXAMPLE, ending(entails(1, at0(0), FT, (0, 0, 0)))),
    "the claim twice": (EXAMPLE, ending(CLAIM, CLAIM)),
    "other claims before": (EXAMPLE, ending(entails(1, FF, FF), CLAIM)),
    "another d": (EXAMPLE, ending(entails(2, at0(0), FT))),
    "another first face": (EXAMPLE, ending(entails(1, b"\x03\x00", FT))),
    "another dimension in the first face": (EXAMPLE, ending(entails(1, at0(1), FT))),
    "another second face": (EXAMPLE, ending(entails(1, at0(0), FF))),
    "a second face of the same first byte": (ending(entails(3, FT, at0(1))), ending(entails(3, FT, at0(2)))),
    "the same bytes but the last": (ending(entails(3, LARGE, at0(1))), ending(entails(3, LARGE, at0(2)))),
    "faces of 511 nodes": (ending(entails(255, LARGE, LARGE)), ending(CLAIM, entails(255, LARGE, LARGE))),
    "the faces exchanged": (EXAMPLE, ending(entails(1, FT, at0(0)))),
    "the halves of a fand exchanged": (ending(entails(2, both(at0(0), at0(1)), FT)), ending(entails(2, both(at0(1), at0(0)), FT))),
    "the claim and more": (EXAMPLE, ending(CLAIM, BEFORE[0])),
    "the claim and another claim": (EXAMPLE, ending(CLAIM, entails(1, FF, FF))),
    "equal last steps that are no claims": (NO_CLAIM, NO_CLAIM),
    "other last steps": (NO_CLAIM, EXAMPLE),
    "equal bytes of a boundary": (ending(entails(16, FT, FF)), ending(record(31, [], b"\x10" + FT + FF))),
    "boundaries with equal bytes": (ending(record(31, [], b"\x10" + FT + FF)), ending(record(31, [], b"\x10" + FT + FF))),
    "both empty": (EMPTY, EMPTY),
    "empty, of other lengths": (EMPTY, bytes(100)),
    "an empty one": (EMPTY, EXAMPLE),
    "an empty one and no claim": (EMPTY, NO_CLAIM),
}


def cases():
    for name, (l, m) in PAIRS.items():
        yield name, l, m
        if l != m:
            yield name + ", exchanged", m, l
    for name, l in ILL.items():
        yield name + ", before the claim", l, EXAMPLE
        yield name + ", behind the claim", EXAMPLE, l
        yield name + ", before an empty one", l, EMPTY
        yield name + ", behind an empty one", EMPTY, l
        yield name + ", twice", l, l


def text(content):
    return little(len(content)) + content


def stored(content):
    """A ledger as it stands in the input, the zeros at its end counted."""
    front = content.rstrip(b"\x00")
    return little(len(front)) + little(len(content) - len(front)) + front


def write(crate, name, content):
    path = ROOT / "crates" / crate / name
    path.parent.mkdir(parents=True, exist_ok=True)
    path.write_bytes(content)


def main():
    every = list(cases())
    given = [text(name.encode()) + stored(l) + stored(m) for name, l, m in every]
    lines = [f"{name}: {answer(l, m)}\n" for name, l, m in every]
    write("repeat_examples", "stdin", little(len(every)) + b"".join(given))
    write("repeat_examples", "stdout", "".join(lines).encode())

    write("repeats", "data/filed.ledger", EXAMPLE)
    write("repeats", "data/submitted.ledger", OTHER)
    write("repeats", "args", b"filed.ledger\nsubmitted.ledger\n")
    write("repeats", "stdout", (answer(EXAMPLE, OTHER) + "\n").encode())

    # Step 5 refers to the steps of a claim in the wrong order.
    wrong = ending(entails(1, at0(0), FT, (3, 2, 4)))
    files = [
        ("example.ledger", EXAMPLE, "passed 6"),
        ("other.ledger", OTHER, "passed 7"),
        ("wrong.ledger", wrong, "refused 10 at 5"),
        ("cut.ledger", EXAMPLE[:-1], "refused 1"),
        ("empty.ledger", EMPTY, "passed 0"),
    ]
    for name, content, _ in files:
        write("stepdesk", "data/" + name, content)
    # marked.ledger is what the published Rust leaves for document 01's first marked example, and stands there already.
    told = [("marked.ledger", "passed 32")] + [(name, said) for name, _, said in files]
    told.append(("missing.ledger", "cannot be read"))
    write("stepdesk", "args", "".join(name + "\n" for name, _ in told).encode())
    write("stepdesk", "stdout", "".join(f"{name}: {said}\n" for name, said in told).encode())
    print(len(every), "cases")


if __name__ == "__main__":
    main()

#!/usr/bin/env python3
"""Writes crates/facesteps_examples/stdin, inputs of the program facesteps, and crates/facesteps_examples/stdout, what it prints for them.

usage: cases.py                    writes both files
       cases.py print              prints what the model prints for standard input
       cases.py against PROGRAM    runs a program on every input and compares what it prints with the model

In stdin a case is its length in decimal, byte 10, so many bytes of input, byte 10. In stdout it is a line `case N`, from 1 on, and
then what facesteps prints for this input; where that is over 2,000 bytes, the line `length L sum A B` stands for it (the sum goes
over all bytes from A = 1, B = 0: A becomes (A + byte) mod 65521, then B becomes (B + A) mod 65521).
The model follows document 01 alone: its reader, its search with the emit rule, the bytes of its ledger, its printer."""
import pathlib
import subprocess
import sys

ROOT = pathlib.Path(__file__).resolve().parents[2]
LONGEST_LINE = 4096
LEDGER = 65536
MOST_NODES = 511
LAST_DIMENSION = 254
LONGEST_PRINTED = 2000
MODULUS = 65521

sys.setrecursionlimit(20000)


class Refused(Exception):
    """A refusal's number."""


# The reader. A face is its name and what follows it: nothing, a dimension, or two faces.
CONSTANTS = (b"ff", b"ft")
LITERALS = (b"at0", b"at1")
PAIRS = (b"fand", b"for")


def tokens(text):
    """Parentheses and runs of other bytes, then None for ever; bytes 32 and 10 separate."""
    at = 0
    while at < len(text):
        end = at + 1
        if text[at] not in b" \n":
            if text[at] not in b"()":
                while end < len(text) and text[end] not in b" \n()":
                    end += 1
            yield text[at:end]
        at = end
    while True:
        yield None


class Reader:
    def __init__(self, text):
        self.tokens = tokens(text)

    def token(self):
        return next(self.tokens)

    def want(self, word):
        if self.token() != word:
            raise Refused(11)

    def number(self, most):
        """z or (s n), with at most so many s; (z) reads as z."""
        successors = lists = 0
        while (token := self.token()) != b"z":
            if token != b"(":
                raise Refused(11)
            lists += 1
            token = self.token()
            if token == b"z":
                break
            if token != b"s":
                raise Refused(11)
            successors += 1
            if successors > most:
                raise Refused(4)
        for _ in range(lists):
            self.want(b")")
        return successors

    def face(self):
        self.nodes = 0
        return self.part()

    def part(self):
        head = self.token()
        bare = head != b"("
        if not bare:
            head = self.token()
        if head not in (CONSTANTS if bare else CONSTANTS + LITERALS + PAIRS):
            raise Refused(11)
        self.nodes += 1
        if self.nodes > MOST_NODES:
            raise Refused(3)
        parts = ()
        if head in LITERALS:
            parts = (self.number(LAST_DIMENSION),)
        elif head in PAIRS:
            parts = (self.part(), self.part())
        if not bare:
            self.want(b")")
        return (head.decode(), *parts)


def read(line):
    """d and both faces."""
    if len(line) > LONGEST_LINE:
        raise Refused(11)
    reader = Reader(line)
    reader.want(b"entails")
    d = reader.number(LAST_DIMENSION + 1)
    a, b = reader.face(), reader.face()
    reader.want(None)
    return d, a, b


# The printer. A context is a list of faces.
def unary(n):
    return "(s " * n + "z" + ")" * n


def printed(x):
    """A number, a context, or a face (or dim n), as document 01 prints them."""
    if isinstance(x, int):
        return unary(x)
    if isinstance(x, list):
        return "".join(f"(fc {printed(face)} " for face in x) + "fnil" + ")" * len(x)
    if len(x) == 1:
        return x[0]
    return f"({x[0]} " + " ".join(map(printed, x[1:])) + ")"


# The ledger: steps in order, and how many bytes their records take.
def size(x):
    """The bytes of an operand: a number 1, a context its count and its faces, a formula its kinds and dimensions."""
    if isinstance(x, int):
        return 1
    if isinstance(x, list):
        return 2 + sum(map(size, x))
    return 1 + sum(map(size, x[1:]))


class Ledger:
    def __init__(self):
        self.known = {}
        self.lines = []
        self.used = 4

    def emit(self, rule, references, predicate, *operands):
        """The lowest number with this judgement, or that of a new step."""
        judgement = f"({predicate} {' '.join(map(printed, operands))})"
        if judgement not in self.known:
            number = self.known[judgement] = len(self.lines)
            self.lines.append(f"{number} {rule} [{','.join(map(str, references))}] {judgement}\n")
            self.used += 4 + 2 + 4 * len(references) + sum(map(size, operands))
        return self.known[judgement]


# The search. References are emitted before their step, left first.
def below(ledger, m, n):
    if n == 0:
        raise Refused(8)
    if m == 0:
        return ledger.emit("lt.z", [], "lt", m, n)
    return ledger.emit("lt.s", [below(ledger, m - 1, n - 1)], "lt", m, n)


def bounded(ledger, d, face):
    """All dimensions of a face are below d."""
    name = face[0]
    if name in ("ff", "ft"):
        return ledger.emit(f"face.{name}", [], "face", d, face)
    if name in ("at0", "at1"):
        dim = ("dim", face[1])
        interval = ledger.emit("interval.dim", [below(ledger, face[1], d)], "interval", d, dim)
        return ledger.emit(f"face.{name[2]}", [interval], "face", d, face)
    parts = [bounded(ledger, d, part) for part in face[1:]]
    return ledger.emit("face.and" if name == "fand" else "face.or", parts, "face", d, face)


def member(ledger, context, i):
    tail = [member(ledger, context[1:], i - 1)] if i else []
    return ledger.emit("member.there" if i else "member.here", tail, "member", context[i], context)


def take(ledger, context, i):
    tail = [take(ledger, context[1:], i - 1)] if i else []
    rest = context[:i] + context[i + 1 :]
    return ledger.emit("take.there" if i else "take.here", tail, "take", context, context[i], rest)


def clash(context):
    """The places of a zero and a one side, from the first literal with an opposite."""
    for i, face in enumerate(context):
        if face[0] in ("at0", "at1"):
            opposite = ("at1" if face[0] == "at0" else "at0", face[1])
            if opposite in context:
                other = context.index(opposite)
                return (i, other) if face[0] == "at0" else (other, i)
    return None


def cover(ledger, context, goal):
    def step(rule, *references):
        return ledger.emit(f"cover.{rule}", references, "cover", context, goal)

    if goal == ("ft",):
        return step("top")
    if goal in context:
        return step("hit", member(ledger, context, context.index(goal)))
    if ("ff",) in context:
        return step("absurd", member(ledger, context, context.index(("ff",))))
    if pair := clash(context):
        return step("clash", member(ledger, context, pair[0]), member(ledger, context, pair[1]))
    compound = next((i for i, face in enumerate(context) if face[0] in ("fand", "for")), None)
    if compound is not None:
        name, left, right = context[compound]
        rest = context[:compound] + context[compound + 1 :]
        taken = take(ledger, context, compound)
        if name == "fand":
            return step("and-left", taken, cover(ledger, [left, right] + rest, goal))
        return step("or-left", taken, cover(ledger, [left] + rest, goal), cover(ledger, [right] + rest, goal))
    if goal[0] == "fand":
        return step("and-right", cover(ledger, context, goal[1]), cover(ledger, context, goal[2]))
    if goal[0] != "for":
        raise Refused(9)
    try:
        left = cover(ledger, context, goal[1])
    except Refused:
        return step("or-right1", cover(ledger, context, goal[2]))
    return step("or-right0", left)


def entails(ledger, d, a, b):
    references = [bounded(ledger, d, a), bounded(ledger, d, b), cover(ledger, [a], b)]
    return ledger.emit("entails.checked", references, "entails", d, a, b)


def facesteps(given):
    """All that the program prints for this standard input."""
    try:
        claim = read(given.split(b"\n")[0])
    except Refused as refusal:
        return f"refused {refusal}\n"
    ledger = Ledger()
    try:
        verdict = f"yes {entails(ledger, *claim)}\n"
    except Refused as refusal:
        verdict = f"refused {refusal}\n"
    if ledger.used > LEDGER:
        return "refused 7\n"
    return "".join(ledger.lines) + verdict


# The inputs.
def literal(n, side=0):
    return f"(at{side} {unary(n)})"


def tight(text):
    """Without the spaces that are not needed."""
    return text.replace(" (", "(").replace(") ", ")")


def balanced(leaf, depth):
    """Two to the depth leaves: few distinct parts, so that listings stay short."""
    for _ in range(depth):
        leaf = f"(for {leaf} {leaf})"
    return leaf


def with_last(face, leaf):
    """The last leaf ff replaced by any text."""
    place = face.rindex("ff")
    return face[:place] + leaf + face[place + 2 :]


def claim(d, a, b):
    return f"entails {unary(d)} {a} {b}\n"


def spelled():
    """Spaces, parentheses and line ends."""
    good = "entails (s z) (at0 z) ft"
    yield from (f"{good}\n", good, f"{good}\nx", f"  {good} \n", f"{good}\r\n", f"\n{good}\n", "", "\n", " \n")
    yield from ("entails(s z)(at0 z)ft\n", "entails(s(z))(at0(z))(ft)\n", "entailsz ff ft\n", "Entails z ff ft\n")
    yield from ("entails ((s z)) (at0 z) ft\n", "entails (s z) ((at0 z)) ft\n", "(entails (s z) (at0 z) ft)\n")
    yield from ("entails () ff ft\n", "entails z () ft\n", "entails z (ff ff) ft\n", "entails z (for ff) ft\n", "entails (z z) ff ft\n")
    for odd in ("\t", "\r", "\0", "\x80", "\xff"):
        yield from (f"entails{odd}z ff ft\n", f"entails z ff {odd} ft\n", f"entails z ff ft{odd}\n")


def replaced():
    """A good line with each of its tokens replaced by one of every class, and left out; and with one behind it."""
    good = "entails ( s z ) ( at0 z ) ft".split()
    classes = ["(", ")", "z", "s", "ff", "for", "dim", "entails", "x", ""]
    for i, word in enumerate(good):
        for other in classes:
            if other != word:
                yield " ".join(good[:i] + [other] * (other != "") + good[i + 1 :]) + "\n"
    yield from (" ".join([*good, behind]) + "\n" for behind in classes[:-1])


def at_limits():
    """The most nodes, the highest dimension and d, the longest line, each with the value next to it."""
    most = tight(balanced("ff", 8))
    yield from (claim(0, most, "ft"), claim(0, "ff", most), tight(claim(0, most, most)))
    for last in ("(ff)", "(at0 z)", "x", "at0", "(dim z)"):
        yield claim(0, with_last(most, last), "ft")
    for beyond in ("ff", "(ff)", "(at0 z)", "(for", "x", "at0", "(dim", "(", ")", ""):
        yield claim(0, with_last(most, f"(for {beyond} ff)"), "ft")
    yield tight(claim(0, most, with_last(most, "(for ff ff)")))
    for n in (LAST_DIMENSION, LAST_DIMENSION + 1):
        yield from (claim(0, literal(n), "ft"), claim(1, literal(0), literal(n, 1)), f"entails z (at0 {'(s ' * n}")
    for d in (LAST_DIMENSION + 1, LAST_DIMENSION + 2):
        yield from (claim(d, "ff", "ft"), f"entails {'(s ' * d}", f"entails {'(s ' * (d - 1)}(x")
    yield claim(101, literal(100), literal(100))
    good = "entails z ff ft"
    for length in (LONGEST_LINE, LONGEST_LINE + 1):
        yield from (good.ljust(length), good.ljust(length) + "\n", good.rjust(length) + "\nx", f"entails {'(s ' * 256}".ljust(length))


def competing():
    """Which of 3, 4 and 11 is met first."""
    many, high = with_last(tight(balanced("ff", 8)), "(for ff ff)"), literal(255)
    yield from (claim(0, many, "x"), claim(0, "x", many), claim(0, many, high), claim(0, high, many), claim(0, high, "x"), claim(0, "x", high))
    yield from (claim(256, many, high), claim(256, "x", "x"), f"x {claim(256, many, high)}", f"entails z ff ft {unary(256)}\n")
    yield from (claim(0, f"(for x {high})", "ff"), claim(0, f"(for {high} x)", "ff"), claim(0, f"(at2 {unary(255)})", "ff"))


def verdicts():
    """Document 01's examples and others: yes, 7, 8, 9."""
    zero, one = literal(0), literal(0, 1)
    a, b = literal(1), literal(1, 1)
    yield claim(2, f"(fand {zero} (for {a} {b}))", f"(for (fand {zero} {a}) (fand {zero} {b}))")
    yield from (claim(1, f"(fand {zero} {one})", "ff"), claim(1, f"(fand {one} {zero})", "ff"), claim(1, "ft", f"(for {zero} {one})"))
    yield from (claim(0, "ff", zero), claim(0, "ff", "ff"), claim(1, f"(for {zero} {a})", "ft"), claim(1, zero, f"(fand {one} {a})"))
    yield claim(2, f"(fand {zero} {a})", f"(for (fand {a} {one}) {zero})")
    yield from (claim(2, zero, a), claim(2, zero, f"(fand {zero} {a})"))
    yield from (claim(2, f"(for {zero} {a})", zero), claim(2, f"(for {zero} {a})", f"(for {a} {zero})"))
    yield claim(1, f"(fand (for ff {zero}) {one})", one)
    for n in (12, 30, 100):
        conjunction = "(fand ft " * n + zero + ")" * n
        yield from (tight(claim(1, conjunction, zero)), tight(claim(1, conjunction, one)))
    both = [f"(for {literal(n)} {literal(n, 1)})" for n in range(4)]
    yield claim(4, f"(fand (fand {both[0]} {both[1]}) {both[2]})", f"(for {both[1]} {both[3]})")


def inputs():
    groups = (spelled(), replaced(), at_limits(), competing(), verdicts())
    return [text.encode("latin-1") for group in groups for text in group]


def total(data):
    a, b = 1, 0
    for byte in data:
        a = (a + byte) % MODULUS
        b = (b + a) % MODULUS
    return a, b


def shown(text):
    """The text, or its length and sum."""
    if len(text) <= LONGEST_PRINTED:
        return text
    return "length {} sum {} {}\n".format(len(text), *total(text.encode()))


def write():
    cases = [(given, facesteps(given)) for given in inputs()]
    folder = ROOT / "crates/facesteps_examples"
    folder.mkdir(exist_ok=True)
    stdin = b"".join(b"%d\n%b\n" % (len(given), given) for given, _ in cases)
    stdout = "".join(f"case {i}\n{shown(text)}" for i, (_, text) in enumerate(cases, 1))
    (folder / "stdin").write_bytes(stdin)
    (folder / "stdout").write_text(stdout)
    longest = max(len(text) for _, text in cases)
    print(f"{len(cases)} cases, {len(stdin)} bytes in, {len(stdout)} bytes out; the longest listing has {longest} bytes")


def against(program):
    differences = 0
    for i, given in enumerate(inputs(), 1):
        said = subprocess.run([program], input=given, stdout=subprocess.PIPE, check=True).stdout
        if said != facesteps(given).encode():
            differences += 1
            print(f"case {i} differs: {given!r}")
    print(f"{i} cases, differences: {differences}")
    return differences > 0


def main():
    words = sys.argv[1:]
    if not words:
        write()
    elif words == ["print"]:
        sys.stdout.write(facesteps(sys.stdin.buffer.read()))
    else:
        sys.exit(against(words[1]))


if __name__ == "__main__":
    main()

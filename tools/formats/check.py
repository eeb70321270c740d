#!/usr/bin/env python3
"""Holds docs/FORMATS.md against the crates: the bytes of formulas, the predicates, the 75 rules, the refusals, the C functions;
and the refusals of README.md against docs/REFUSALS.md, word for word.

    python3 tools/formats/check.py            the tables against crates/, the worked examples against the tables
    python3 tools/formats/check.py --call     and the C program of the document, built with gcc and run (after `bash tools/library/build.sh`)

The rules are compared with three places: names, reference counts and predicates with the table that the code reads
(crates/kinds/src/table.rt) and with that of the calculus (specs/Table.antt), references and judgements with the rules of the
calculus (specs/Rules.antt), up to the choice of letters. Only the Python library is used. The last line says how much was
compared, or how much differs.
"""
import itertools
import pathlib
import re
import subprocess
import sys

ROOT = pathlib.Path(__file__).resolve().parents[2]
DOCUMENT = (ROOT / "docs/FORMATS.md").read_text(encoding="utf-8")
wrong, compared = [], 0


def same(what, ours, theirs):
    """Counts a comparison of the document with the crates."""
    global compared
    compared += 1
    if ours != theirs:
        wrong.append(f"{what}: the document has {ours!r}, the crates have {theirs!r}")


def crate(path):
    return (ROOT / "crates" / path).read_text(encoding="utf-8")


# The document --------------------------------------------------------------------------------------


def section(title):
    """The text below a heading, up to the next of its level or a higher one."""
    found = re.search(rf"^(#+) {re.escape(title)}\n(.*?)(?=^#{{1,2}} |\Z)", DOCUMENT, re.M | re.S)
    if not found:
        sys.exit(f"docs/FORMATS.md has no section '{title}'")
    return found[2]


def rows(title, columns):
    """The rows of the tables in a section that have so many columns, code marks taken off, heads left out."""
    lines = [line for line in section(title).splitlines() if line.startswith("|")]
    cells = [[cell.strip() for cell in line.strip("|").split("|")] for line in lines]
    heads = {i - 1 for i, row in enumerate(cells) if set(row[0]) <= set("-:")}
    return [
        [cell.strip("`") if cell.count("`") == 2 else cell for cell in row]
        for i, row in enumerate(cells)
        if len(row) == columns and i not in heads and not set(row[0]) <= set("-:")
    ]


def blocks(title, language):
    return re.findall(rf"^```{language}\n(.*?)^```", section(title), re.M | re.S)


# Terms -----------------------------------------------------------------------------------------------


def tree(text):
    """A printed expression as nested lists of words."""
    stack = [[]]
    for word in re.findall(r"[()]|[^()\s]+", text):
        if word == "(":
            stack.append([])
        elif word == ")":
            done = stack.pop()
            stack[-1].append(done)
        else:
            stack[-1].append(word)
    if len(stack) != 1 or len(stack[0]) != 1:
        sys.exit(f"not one expression: {text}")
    return stack[0][0]


def printed(term):
    return term if isinstance(term, str) else "(" + " ".join(map(printed, term)) + ")"


# Words that are no letters of a rule.
WORDS = {"z", "ff", "ft", "i0", "i1", "fnil"}


def lettered(terms):
    """Terms with their letters renamed in the order in which they first stand."""
    letters = {}

    def renamed(term):
        if isinstance(term, list):
            return [term[0]] + [renamed(x) for x in term[1:]]
        return term if term in WORDS else letters.setdefault(term, f"${len(letters)}")

    return [printed(renamed(term)) for term in terms]


def parsed(text):
    """A term of the calculus as the listing prints it: `at lo n` is (at0 n), `suc n` (s n), `f ∷ G` (fc f G)."""

    def cons(items):
        parts, current = [], []
        for item in items:
            if item == "∷":
                parts.append(current)
                current = []
            else:
                current.append(item)
        parts = [*parts, current]
        if len(parts) == 1:
            return applied(parts[0])
        whole = applied(parts[-1])
        for part in reversed(parts[:-1]):
            whole = ["fc", applied(part), whole]
        return whole

    def applied(items):
        values = [cons(item) if isinstance(item, list) else item for item in items]
        if len(values) == 1:
            return {"0": "z", "[]": "fnil"}.get(values[0], values[0]) if isinstance(values[0], str) else values[0]
        if values[0] == "at":
            return [{"lo": "at0", "hi": "at1"}[values[1]], values[2]]
        if values[0] == "suc":
            return ["s", values[1]]
        return [{"0": "z"}.get(v, v) if isinstance(v, str) else v for v in values]

    nested = tree("(" + text.replace("[]", " [] ") + ")")
    return cons(nested)


def listed(term):
    """The items of a list of judgements."""
    items = []
    while isinstance(term, list) and term[0] == "fc":
        items.append(term[1])
        term = term[2]
    return items


# The parts of the document ------------------------------------------------------------------------------


def formulas():
    """Kind bytes by name, and how many formulas and dimensions follow."""
    found = {row[1]: (int(row[0]), row[2]) for row in rows("Formulas as bytes", 4) if row[0].isdigit()}
    names = crate("text/specs/Words.antt")
    for sort, first in (("Faces", 0), ("Intervals", 16)):
        line = re.search(rf"^names {sort} = (.*)$", names, re.M)[1]
        for i, name in enumerate(re.findall(r'"(\w+)"', line)):
            same(f"byte of {name}", found.get(name, (None,))[0], first + i)
    nodes = crate("formula/specs/Bytes.antt")
    shapes = {"leaf": "nothing", "lit": "a dimension", "one": "a formula", "two": "two formulas"}
    for function, first in (("face_node", 0), ("interval_node", 16)):
        line = re.search(rf"^{function} b = get_or \((.*)\) b bad$", nodes, re.M)[1]
        for i, entry in enumerate(x for x in line.split(" ∷ ") if x != "[]"):
            follows = [what for kind, what in found.values() if kind == first + i]
            same(f"what follows byte {first + i}", follows, [shapes[entry.split()[0].strip("(")]])
    same("formula bytes", len(found), 12)
    return found


SORTS = {"Number": "number", "Index": "index", "Context": "context", "End": "end", "Face": "face", "Interval": "interval"}


def predicates():
    """The sorts of the operands by predicate."""
    table = rows("Judgements", 5)
    found = [(row[0], row[2].split(", ")) for row in table]
    fields = re.findall(r"^ +(?:\d+|_) => &\[([\w, ]+)\], // (\w+)$", crate("kinds/src/table.rt").split("fn fields_of")[1].split("\n}\n")[0], re.M)
    theirs = [(name, [SORTS[field] for field in listed.split(", ")]) for listed, name in fields]
    same("predicates", [name for name, _ in found], [name for name, _ in theirs])
    for ours, code in zip(found, theirs):
        same(f"operands of {ours[0]}", [sort.split()[0] for sort in ours[1]], code[1])
    sorts = {"number": "number", "index": "index", "context": "context", "end": "end", "Faces": "face", "Intervals": "interval"}
    for line in re.findall(r"^fields p_(\w+) = (.*)$", crate("calculus/specs/Record.antt"), re.M):
        spec = [sorts[word.split()[-1]] for word in line[1].split(" ∷ ") if word != "[]"]
        same(f"operands of {line[0]}", [sort.split()[0] for sort in dict(found)[line[0].lower()]], spec)
    for name, _, operands, form, _ in table:
        same(f"printed form of {name}", tree(form), [name, *(operand.split()[1] for operand in operands.split(", "))])
    kinds = {name: range(int(first), int(last) + 1) for name, first, last in (re.split(r"\|| to ", f"{row[0]}|{row[1]}") for row in table)}
    return {name: [sort.split()[0] for sort in operands] for name, operands in found}, kinds


def rules(operands, ranges):
    """Names, reference counts and predicates of the kinds."""
    found = {}
    for kind, name, references, judgement, _ in rows("The rules", 5):
        premises = re.findall(r"\(.*?\)(?=, \(|$)", references.replace("`", "")) if references != "none" else []
        found[int(kind)] = (name, [tree(p) for p in premises], tree(judgement))
    same("kinds", sorted(found), list(range(1, 76)))
    code = crate("kinds/src/table.rt")
    table = re.findall(r'^ +Row\(b"([a-z0-9.-]+)", (\d), (\d+)\),$', code, re.M)
    same("rows that the code says it has", ["75"], re.findall(r"^static ROWS: \[Row; (\d+)\]", code, re.M))
    same("rows in the code", 75, len(table))
    order = list(operands)
    for kind, (named, count, predicate) in enumerate(table, 1):
        name, premises, judgement = found[kind]
        same(f"kind {kind}", (name, len(premises), judgement[0]), (named, int(count), order[int(predicate)]))
    entries = re.findall(r'^ +entry "([^"]+)" (\d) p_(\w+)', crate("calculus/specs/Table.antt"), re.M)
    same("entries of the calculus", len(entries), 75)
    for kind, (name, count, predicate) in enumerate(entries, 1):
        ours = found[kind]
        same(f"kind {kind}", (ours[0], len(ours[1]), ours[2][0]), (name, int(count), predicate.lower()))
    spec = crate("calculus/specs/Rules.antt").split("pub data Rule ")[1].split("\n\n")[0]
    clauses = re.findall(r"^  \S+ :.*?Rule (\d+) (.*)$", spec, re.M)
    same("rules of the calculus", [int(kind) for kind, _ in clauses], list(range(1, 76)))
    for kind, text in clauses:
        nested = tree("(" + text.replace("[]", " [] ") + ")")
        premises, judgement = (parsed(printed(x)) for x in nested)
        ours = lettered([*found[int(kind)][1], found[int(kind)][2]])
        same(f"kind {kind}", ours, lettered([*listed(premises), judgement]))
    for kind, (name, premises, judgement) in found.items():
        same(f"predicate of kind {kind}", [p for p, kinds in ranges.items() if kind in kinds], [judgement[0]])
        for term in [*premises, judgement]:
            same(f"operands in kind {kind}, {name}", len(term) - 1, len(operands[term[0]]))
    return {kind: (name, len(premises), judgement[0]) for kind, (name, premises, judgement) in found.items()}


def numbered(text):
    """Number, meaning and what to do, of the lines of a table that begin with a number."""
    lines = [[cell.strip() for cell in line.strip("|").split("|")] for line in re.findall(r"^\| \d+ \|.*$", text, re.M)]
    return [(line[0], *line[-2:]) for line in lines]


def refusals():
    theirs = sorted(int(n) for n in re.findall(r"^number .* = (\d+)$", crate("refusals/specs/Refusals.antt"), re.M))
    same("refusals", [int(row[0]) for row in rows("Refusals", 4) if row[0].isdigit()], theirs)
    readme = (ROOT / "README.md").read_text(encoding="utf-8").split("\nAll refusals")[1].split("\n## ")[0]
    words = ROOT / "docs/REFUSALS.md"
    same("refusals of README.md and docs/REFUSALS.md", numbered(readme), numbered(words.read_text(encoding="utf-8")) if words.exists() else [])


def functions():
    """The C functions with their arguments."""
    theirs = {}
    for name, arguments in re.findall(r"^pub extern \"C\" fn (\w+)\((.*?)\) -> u64", crate("exports_c/src/lib.rt"), re.M | re.S):
        theirs[name] = re.findall(r"(\w+): ", arguments)
    ours = {}
    for call, _, _ in rows("Answers of the C functions", 3):
        name, arguments = re.match(r"(\w+)\((.*)\)$", call).groups()
        ours[name] = arguments.split(", ")
    same("functions", sorted(ours), sorted(theirs))
    for name in sorted(set(ours) & set(theirs)):
        same(f"arguments of {name}", ours[name], theirs[name])


# The worked examples ---------------------------------------------------------------------------------------


class Reader:
    """Reads a ledger by the tables of the document."""

    def __init__(self, content, names, operands, kinds):
        self.left, self.operands, self.kinds = list(content), operands, kinds
        self.nodes = {kind: (name, follows) for name, (kind, follows) in names.items()}

    def take(self, width):
        taken, self.left = self.left[:width], self.left[width:]
        if len(taken) < width:
            raise ValueError("the bytes end early")
        return sum(b << 8 * i for i, b in enumerate(taken))

    def unary(self, n):
        return "(s " * n + "z" + ")" * n

    def formula(self):
        name, follows = self.nodes[self.take(1)]
        if follows == "nothing":
            return name
        if follows == "a dimension":
            return f"({name} {self.unary(self.take(1))})"
        return f"({name} {' '.join(self.formula() for _ in range(1 if follows == 'a formula' else 2))})"

    def operand(self, sort):
        if sort in ("number", "index"):
            return self.unary(self.take(1))
        if sort != "context":
            return self.formula()
        faces = [self.formula() for _ in range(self.take(2))]
        return "".join(f"(fc {face} " for face in faces) + "fnil" + ")" * len(faces)

    def ledger(self):
        """The listing."""
        length, lines = self.take(4), []
        end = len(self.left) - length
        while len(self.left) > end:
            size = self.take(4)
            behind = len(self.left) - size
            name, count, predicate = self.kinds[self.take(2)]
            references = ",".join(str(self.take(4)) for _ in range(count))
            judgement = " ".join([predicate, *(self.operand(sort) for sort in self.operands[predicate])])
            if len(self.left) != behind:
                raise ValueError(f"the record of step {len(lines)} is not used up")
            lines.append(f"{len(lines)} {name} [{references}] ({judgement})")
        if any(self.left):
            raise ValueError("the rest is not zero")
        return "\n".join(lines) + "\n"


def number(term):
    return 0 if term == "z" else 1 + number(term[1])


def unary(n):
    return "z" if n == 0 else ["s", unary(n - 1)]


def boundary(r, side):
    if r in ("i0", "i1"):
        return "ft" if r == f"i{side}" else "ff"
    if r[0] == "dim":
        return [f"at{side}", r[1]]
    if r[0] == "neg":
        return boundary(r[1], 1 - side)
    return ["for" if (r[0] == "meet") == (side == 0) else "fand", boundary(r[1], side), boundary(r[2], side)]


def operated(operation, term):
    """The results of an operation of the document on a formula."""
    if operation == "boundary":
        return [printed(boundary(term, 0)), printed(boundary(term, 1))]
    name, put, k = re.match(r"(\w+) (?:`(.*)` for )?(\d+)$", operation).groups()

    def changed(t):
        if isinstance(t, str):
            return t
        if t[0] not in ("at0", "at1", "dim"):
            return [t[0], *map(changed, t[1:])]
        n = number(t[1])
        if name == "shift":
            return [t[0], unary(n + (n >= int(k)))]
        if n != int(k):
            return [t[0], unary(n - (n > int(k)))]
        if name == "forall":
            return "ff"
        return tree(put) if t[0] == "dim" else boundary(tree(put), int(t[0][2]))

    return [printed(changed(term))]


def normal(face):
    """The normal form of a small face; no limits."""

    def clauses(f):
        if f in ("ff", "ft"):
            return {"ff": [], "ft": [()]}[f]
        if f[0] in ("at0", "at1"):
            return [((number(f[1]), f[0]),)]
        x, y = clauses(f[1]), clauses(f[2])
        if f[0] == "fand":
            x, y = [tuple(sorted({*c, *d})) for c in x for d in y if len({n for n, _ in {*c, *d}}) == len({*c, *d})], []
        return sorted(c for c in {*x, *y} if not any(set(d) < set(c) for d in {*x, *y}))

    def nested(name, empty, parts):
        whole = parts[0] if parts else empty
        for part in parts[1:]:
            whole = [name, whole, part]
        return whole

    return printed(nested("for", "ff", [nested("fand", "ft", [[end, unary(n)] for n, end in c]) for c in clauses(face)]))


def bound(f):
    """One more than the largest dimension, 0 where there is none."""
    if isinstance(f, str):
        return 0
    return number(f[1]) + 1 if f[0] in ("at0", "at1", "dim") else max(map(bound, f[1:]))


def counterexample(d, a, b):
    """The bytes of the least counterexample, every assignment tried, or the refusal."""

    def holds(f, at):
        if f in ("ff", "ft"):
            return f == "ft"
        if f[0] in ("at0", "at1"):
            return at[number(f[1])] == int(f[0][2])
        return (all if f[0] == "fand" else any)(holds(part, at) for part in f[1:])

    if max(bound(a), bound(b)) > d:
        return "refused 8"
    every = sorted(itertools.product(range(3), repeat=d), key=lambda at: (sum(v < 2 for v in at), at))
    found = [at for at in every if holds(a, at) and not holds(b, at)]
    return " ".join(map(str, found[0])) if found else "refused 12"


def counted(content):
    """Bytes as the document writes them where they repeat: 33 times 5 0, then 3 2."""
    parts = [re.match(r"(?:(\d+) times )?([\d ]+)$", part).groups() for part in content.split(", then ")]
    return [int(b) for times, repeated in parts for b in int(times or 1) * repeated.split()]


def fence(sort, content, names, operands, kinds):
    """Depth, and the node count or the refusal, of bytes to the fence of a sort."""

    def depth(f):
        return 0 if isinstance(f, str) or f[0] in ("at0", "at1", "dim") else 1 + max(map(depth, f[1:]))

    reader = Reader(content, names, operands, kinds)
    text = reader.formula()
    nodes = [names[word][0] for word in re.findall(r"\w+", text) if word in names]
    if reader.left or any((kind < 16) != (sort == "face") for kind in nodes):
        return "none", "refused 2"
    f = tree(text)
    refused = [q for q, no in ((3, len(nodes) > 511), (4, bound(f) > 255), (13, max(bound(f) - 1, depth(f)) > 32)) if no]
    return str(depth(f)), f"refused {refused[0]}" if refused else str(len(nodes))


def examples(names, operands, kinds):
    for text, content, nodes in rows("Formulas as bytes", 3):
        ours = Reader(map(int, content.split()), names, operands, kinds)
        same(f"bytes {content}", (text, []), (ours.formula(), ours.left))
        same(f"nodes of {text}", int(nodes), sum(word in names for word in re.findall(r"\w+", text)))
    for operation, on, results in rows("Operations on formulas", 3):
        if operation.split()[0] in ("boundary", "forall", "shift", "substitute"):
            same(f"{operation} of {on}", results.replace("`", "").split(", "), operated(operation, tree(on)))
    for face, form in rows("The normal form", 2):
        same(f"normal form of {face}", form, normal(tree(face)))
    for d, a, b, content in rows("Counterexamples", 4):
        same(f"counterexample to {a} and {b} over {d}", content, counterexample(int(d), tree(a), tree(b)))
    for sort, content, depth, answer in rows("The producer's limits", 4):
        same(f"fence of the {sort} {content}", (depth, answer), fence(sort, counted(content), names, operands, kinds))
    worked = [row for row in rows("A ledger, byte by byte", 3)]
    content = [int(b) for row in worked for b in re.findall(r"\d+", row[1])]
    for at, written, _ in worked:
        same(f"place {at}", int(at), sum(len(re.findall(r"\d+", row[1])) for row in worked[: worked.index([at, written, _])]))
    same("the worked ledger", blocks("A ledger, byte by byte", "text")[0], Reader(content, names, operands, kinds).ledger())


def call():
    """The C program of the document, and what it prints."""
    folder = ROOT / "target/formats"
    folder.mkdir(parents=True, exist_ok=True)
    (folder / "first.c").write_text(blocks("A first call", "c")[0], encoding="utf-8")
    library = ROOT / "target/staticlib/libexports.a"
    subprocess.run(["gcc", "-Wall", "-Wextra", "-Werror", "-o", folder / "first", folder / "first.c", library], check=True)
    said = subprocess.run([folder / "first"], check=True, capture_output=True, text=True).stdout
    same("what the program prints", blocks("A first call", "text")[0], said)


def main():
    names = formulas()
    operands, ranges = predicates()
    kinds = rules(operands, ranges)
    refusals()
    functions()
    if not wrong:
        examples(names, operands, kinds)
    if "--call" in sys.argv[1:]:
        call()
    for line in wrong:
        print(line)
    print(f"docs/FORMATS.md: {compared} comparisons, {len(wrong)} differ")
    return 1 if wrong else 0


if __name__ == "__main__":
    sys.exit(main())

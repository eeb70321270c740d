#!/usr/bin/env python3
"""Turns Proof.antt files that answer goals one by one into Invariants.antt and Answers.antt.

usage: python3 tools/port/answers.py NAMES CRATE..      in the repository; NAMES is a folder that `rt names NAMES` wrote

An old answer walks back through the code (c.before.before.args), a new one names the step (c.args). Answers that only call the
search go, since the check tries that itself. What has no new name keeps its old one with !OLD behind it, for a mend by hand.
"""

import json
import os
import re
import sys

PATH = re.compile(r"(?<![\w.'-])c((?:\.(?:[^\W\d][\w'₀-₉]*|\d+)(?:-[\w'₀-₉]+)*)+)")
TRIVIAL = re.compile(r"^search (rules|needs)$")
ROOTS = {"args", "requires", "lifetimes", "ranges", "type_inv", "utf8"}
DROPPED = re.compile(r"slice_aggregate_|same_length")


def plain(word):
    """A name as port.py may have respelled it."""
    return re.sub(r"_lem(?=_|\d*$)", "", word.replace("-", "_").lower())


def step(word):
    """A step's name, with its count as it was written."""
    return re.sub(r"_(\d+)$", r"\1", plain(word))


class Names:
    def __init__(self, entry):
        self.places = entry["places"]
        self.arms = entry["arms"]
        self.typed = entry["typed"]
        self.index = {plain(p[0]): i for i, p in enumerate(self.places)}
        self.goals = {}
        for (old, new), at in zip(entry["needs"], entry["asked_at"]):
            self.goals[plain(old)] = (new, plain(at[0]))
        self.loops = [(plain(l[0][0]), l[0][1], l[1]) for l in entry["loops"]]
        self.changed = entry["changed"]
        self.settled = set(entry["settled"])
        self.params = entry["params"]

    def parent(self, i):
        return self.index[plain(self.places[i][1])] if self.places[i][1] else 0

    def path(self, at, dots):
        segs = dots[1:].split(".")
        while segs and segs[0] == "before":
            segs.pop(0)
        if not segs:
            return "c.before!OLD"
        if segs[0] in ROOTS:
            return "c." + ".".join(segs)
        # A step's old name is its own in the function, so the way back need not be counted.
        j, way = self.index[at], []
        while True:
            way.append(j)
            if not self.places[j][1]:
                break
            j = self.parent(j)
        for j in way + list(range(len(self.places))):
            if step(self.places[j][2][0]) == step(segs[0]):
                return self.field(j, segs)
        return "c." + ".".join(segs) + "!OLD"

    def field(self, j, segs):
        place = self.places[j]
        for var, known in self.typed[j]:
            if step(known) == step(segs[0]) and segs[1:2] == ["given"]:
                return "c.type_inv." + ".".join([var] + segs[2:])
        arm = self.arms[j]
        if arm:
            name, _, parts = arm
            for new, old, sub in parts:
                if step(old) == step(segs[0]) and segs[1 : 1 + len(sub)] == sub and not new.endswith("-own"):
                    return "c." + ".".join([name, new] + segs[1 + len(sub) :])
            others = [a[0] for p, a in zip(self.places, self.arms) if a and p[1] == place[1] and a[0] != name]
            if name == "in_default" and segs[1:] and segs[1].startswith("keys") and len(others) == 1:
                return "c." + ".".join([name, others[0].replace("in-", "not-", 1)] + segs[2:])
            return "c." + ".".join([name] + segs[1:]) + "!OLD"
        if segs[1:2] in (["auto"], ["new"]) and place[3] and segs[2:]:
            # The length of a slice that was lent, by the slice's name.
            k = 0
            while segs[2 + k : 3 + k] == ["1"]:
                k += 1
            params = self.params.get(place[3], [])
            if segs[2 + k : 3 + k] == ["0"] and k < len(params):
                return "c." + ".".join([place[2][1], segs[1], params[k]] + segs[3 + k :])
        return "c." + ".".join([place[2][1]] + segs[1:])


def blocks(text):
    out = []
    for line in text.split("\n"):
        if line and not line[0].isspace() and not (out and out[-1][-1].startswith(("unfolding", "-- "))):
            out.append([line])
        elif out:
            out[-1].append(line)
        else:
            out.append([line])
    return ["\n".join(b).rstrip() for b in out if "".join(b).strip()]


def joined(bs):
    """Blocks of one definition put together: its signature, unfolding line and equations."""
    out = []
    for b in bs:
        head = b.split("\n")
        name = next((l for l in head if not l.startswith("-- ")), "")
        m = re.match(r"(?:(?:abbrev|pub|unfoldable) )*([^\s:]+)", name)
        key = m[1] if m else name
        if out and (b.startswith("unfolding") or out[-1][0] == key and not b.startswith(("use ", "module", "record", "data"))):
            if b.startswith("unfolding"):
                m = re.match(r"unfolding[^\n]*\n", b + "\n")
            out[-1] = (out[-1][0], out[-1][1] + "\n" + b)
        else:
            out.append((key, b))
    return out


def argument(text, at):
    """The end of the parenthesis that begins at a place."""
    depth = 0
    for i in range(at, len(text)):
        depth += {"(": 1, ")": -1}.get(text[i], 0)
        if depth == 0:
            return i + 1
    return len(text)


def sums(body):
    """The arms and the subject of nested uses of ⊎_elim, or None."""
    m = re.match(r"⊎_elim\s*", body)
    if not m:
        return None
    i = argument(body, m.end())
    first = body[m.end() + 1 : i - 1].strip()
    j = i
    while j < len(body) and body[j].isspace():
        j += 1
    k = argument(body, j)
    rest, tail = body[j + 1 : k - 1].strip(), body[k:].strip()
    inner = sums(rest)
    return [first] + (inner[0] if inner else [rest]), tail


def substitute(body, mapping):
    if not mapping:
        return body
    words = sorted(mapping, key=len, reverse=True)
    return re.sub(r"(?<![\w.'-])(" + "|".join(map(re.escape, words)) + r")(?![\w'₀-₉-]| = )", lambda m: mapping[m[1]], body)


def invariant(block, names, kind):
    """An invariant or a measure of a loop."""
    sig, eq = block.split("\n", 1)
    old = re.match(r"abbrev (?:pub )?(?:invariant|decreases)-(\S+) :", sig)[1]
    at = next((i for i, l in enumerate(names.loops) if l[0] == plain(old)), None)
    if at is None:
        return f"-- !OLD loop {old}\n{block}"
    _, new, variables = names.loops[at]
    lhs, body = eq.split("=", 1)
    params = lhs.split()[1:]
    changed = names.changed[at]
    mapping = {}
    for v, p, ch in zip(variables, params, changed):
        mapping[p] = f"l.initial.{v}" if ch else f"l.{v}"
    for v, p in zip([v for v, ch in zip(variables, changed) if ch], params[len(variables) :]):
        mapping[p] = f"l.{v}"
    note = "" if len(params) == len(variables) + sum(changed) else "-- !OLD parameters\n"
    name = f"{kind}-{new}"
    return f"{note}abbrev pub {name} : goal.{name}\n{name} l ={substitute(body, mapping)}"


def measure(block, names, function):
    """A recursion's measure."""
    m = re.search(r"(?m)^μ-\S+ κs a = ?((?:.|\n)*)", block)
    if not m:
        return f"-- !OLD\n{block}"
    params = next((v for k, v in names.params.items() if k.split("::")[-1] == function), [])

    def at(m):
        k = m[1].count(".1")
        return f"l.{params[k]}" if k < len(params) else m[0] + "!OLD"

    return f"abbrev pub decreases-{function} : goal.decreases-{function}\ndecreases-{function} l = " + re.sub(r"\ba((?:\.1)*)\.0", at, m[1])


def turn(path, crate, listed):
    folder = os.path.dirname(path)
    inside = folder.split(f"crates/{crate}/proofs/")[1]
    module = f"Rattle.{crate}.proofs." + inside.replace("/", ".")
    last = inside.split("/")[-1]
    cycle = last.startswith("+")
    key = f"Rattle-{crate}-proofs." + inside.replace("/", ".") + ".Lts" + ("-" + last[1:] if cycle else "")
    if key not in listed:
        return f"no names for {key}"
    names = Names(listed[key])
    with open(path, encoding="utf-8") as f:
        text = f.read()
    if "Need-" not in text:
        return "no goals in it"
    uses, invariants, answers, odd = [], [], [], 0
    renames, said = {}, []
    for name, block in joined(blocks(text)):
        if re.match(r"(-- [^\n]*\n)*use ", block):
            for line in block.split("\n"):
                if line.startswith("-- "):
                    said.append(line)
                    continue
                if not re.search(r"\.proofs\..*\.(Statement|Tie|Reads|Kinds)\b|\.Lts-|\.Lts as|borrow\.Fn|statement\}", line):
                    uses.append(line)
            continue
        if re.match(r"abbrev (pub )?(invariant|decreases)-", block):
            kind = "invariant" if "invariant-" in block.split(":")[0] else "decreases"
            invariants.append(invariant(block, names, kind))
            continue
        if re.match(r"abbrev μ-", block):
            invariants.append(measure(block, names, last[1:]))
            continue
        if cycle and re.search(r"PlainCycle|-lts\.Claims|shares-kinds|-kinds\.ps|In 1 ", block.split("\n")[0] + block) and "Need-" not in block:
            continue
        if re.match(r"(?:pub )?\+?\S+[-_]spec\b", block) and ("close" in block or "statement" in block):
            continue
        m = re.search(r"(?:tie|-lts|lts)\.Need-(\S+)", block.split("\n")[0])
        if m is None and re.search(r"\bNeed-", block):
            m = re.search(r"\.Need-(\S+)", block)
        if not m:
            answers.append(block)
            continue
        old = plain(m[1])
        found = None
        for tried in (old, re.sub(r"^overflow_", "", old), re.sub(r"^slice_bounds_", "part_", old), re.sub(r"^slice_bounds_", "", old)):
            if tried in names.goals:
                found = names.goals[tried]
                break
        eq = re.search(r"(?m)^(?!unfolding|--|abbrev)\S+((?: [\w₀-₉'κ𝓤𝓛]+)*) =\s*((?:.|\n)*)", block)
        if not found and DROPPED.match(old):
            continue
        if not found:
            odd += 1
            answers.append("-- !OLD goal " + m[1] + "\n" + block)
            continue
        if not eq:
            odd += 1
            answers.append("-- !OLD form\n" + block)
            continue
        new, at = found
        args = [a for a in eq[1].split() if a not in ("κs", "κ")]
        body = eq[2]
        trivial = TRIVIAL.match(body.strip()) or new in names.settled
        unf = re.search(r"(?m)^unfolding [^\n]*\n", block)
        var = args[-1] if args else "c"
        if var != "c":
            odd += 1
        body = PATH.sub(lambda m: names.path(at, m[1]), body)
        # A test of !x says now what it says of x.
        body = re.sub(r"not-(?:true|false) _ (c\.[\w.'₀-₉-]+\.(?:true|false))", r"\1", body)
        odd += body.count("!OLD")
        renames[name] = new
        answers.append((trivial, name, f"pub {new} : goal.{new}\n{unf[0] if unf else ''}{new} {' '.join(args)} = {body}".rstrip()))
    # An answer may cite another by its old name; what only calls the search stays where it is cited.
    bodies = [a if isinstance(a, str) else a[2] for a in answers if isinstance(a, str) or not a[0]]
    cited = {n for n in renames if any(re.search(r"(?<![\w.'-])" + re.escape(n) + r"(?![\w'-])", b.split("=", 1)[-1]) for b in bodies)}
    answers = [a if isinstance(a, str) else a[2] for a in answers if isinstance(a, str) or not a[0] or a[1] in cited]
    refs = {n: renames[n] for n in cited}
    answers = [a.split(" = ", 1)[0] + " = " + substitute(a.split(" = ", 1)[1], refs) if refs and a.startswith("pub ") and " = " in a else a for a in answers]
    text = "\n\n".join(answers)
    words = set(re.findall(r"[^\s(){}\[\];,.]+", text))

    def used(lines, text):
        return "".join(l + "\n" for l in lines)

    def write(file, goal, parts):
        with open(os.path.join(folder, file), "w", encoding="utf-8") as f:
            f.write(used(said, "") + used(uses, "") + f"use {module}.{goal} as goal\n\n" + "\n\n".join(parts) + "\n")

    if invariants:
        write("Invariants.antt", "Given", invariants)
    if answers:
        write("Answers.antt", "Goals", answers)
    os.remove(path)
    return f"{len(invariants)} invariants and measures, {len(answers)} answers, {odd} places by hand"


def main(folder, crates):
    for crate in crates:
        with open(os.path.join(folder, "crates", crate, "names.json"), encoding="utf-8") as f:
            listed = json.load(f)
        for at, dirs, files in sorted(os.walk(f"crates/{crate}/proofs")):
            if "Proof.antt" in files:
                print(f"{at}: {turn(os.path.join(at, 'Proof.antt'), crate, listed)}")


if __name__ == "__main__":
    main(sys.argv[1], sys.argv[2:])

#!/usr/bin/env python3
"""Spells definitions and lemmas in snake case, as Rattle's library does: dimAt becomes dim_at, encode-readAll becomes encode-read_all.

usage: python3 tools/port/snake_case.py [ROOT]

Renames words of .antt files, of contracts in .rt files and of must-fail edits. A word is renamed where each of its parts between
dashes that has a capital begins with a small letter and has no underscore before a capital: so types, modules and generated names
keep theirs, and Rust's own names have no such form. Strings and comments of .rt files stay. A lemma whose name would fall together
with a definition's is named for what it says of it (APART).
"""

import os
import re
import sys

WORD = re.compile(r"[^\W\d][\w'₀-₉]*(?:-[\w'₀-₉]+)*", re.U)
CAMEL = re.compile(r"[a-z][a-z0-9'₀-₉]*[A-Z]")
# In these crates the word on the left is a lemma on the definition that gets its spelling.
APART = {
    "grammar": {"in_place": "in_place-at"},
    "numbers": {"is_one": "is_one-from_zero"},
    "rules": {"pattern_number": "pattern_number-inst"},
    "index": {"same_step": "same_step-by"},
}


def snake(word):
    def part(p):
        if not CAMEL.match(p):
            return p
        return re.sub(r"(?<=[a-z0-9'₀-₉])([A-Z])", lambda m: "_" + m[1].lower(), p)

    return "-".join(part(p) for p in re.sub(r"^getD(?=-|$)", "get_or", word).split("-"))


def renamed(text, apart):
    return WORD.sub(lambda m: snake(apart.get(m[0], m[0])), text)


def rust(line):
    """A line of a .rt file: its strings and its comment stay."""
    code, mark, said = line.partition("//")
    return "".join(p if i % 2 else renamed(p, {}) for i, p in enumerate(re.split(r'("(?:[^"\\]|\\.)*")', code))) + mark + said


def turn(path, crate):
    with open(path, encoding="utf-8") as f:
        old = f.read()
    if path.endswith(".antt"):
        # The name of a function of src/ is a part of paths, and stays.
        apart = APART.get(crate, {})
        new = "".join(l if l.startswith("use Rattle.") and ".proofs.is_one." in l else renamed(l, apart) for l in old.splitlines(keepends=True))
    elif path.endswith(".rt"):
        new = "".join(map(rust, old.splitlines(keepends=True)))
    else:
        new = "".join(renamed(l, {}) if l.startswith(("old: ", "new: ")) else l for l in old.splitlines(keepends=True))
    if new != old:
        with open(path, "w", encoding="utf-8") as f:
            f.write(new)
    return new != old


def main(root):
    n = 0
    inside = os.path.join(root, "crates")
    for folder, dirs, files in os.walk(inside):
        dirs[:] = sorted(d for d in dirs if d != "out")
        crate = os.path.relpath(folder, inside).split(os.sep)[0]
        for f in sorted(files):
            if f.endswith((".antt", ".rt", ".edit")):
                n += turn(os.path.join(folder, f), crate)
    print(f"{n} files changed")


if __name__ == "__main__":
    main(sys.argv[1] if len(sys.argv) > 1 else ".")

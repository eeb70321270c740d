#!/usr/bin/env python3
"""What a reader has to believe to accept a statement: the definitions in specs folders that it rests on.

    python3 tools/gate/believe.py [NAME] [FILE]      Demand3 and its two ways of answering in crates/demand/specs, unless told
    python3 tools/gate/believe.py -v                 also each file with the definitions that are reached in it

Definitions are reached by name, through the `use` lines of their files; lines are counted without comments, blank lines and
imports. Beside them stand the enums of src/ that they name (`declared`), and the libraries' own symbols.
"""
import os
import re
import sys

ROOT = os.path.dirname(os.path.dirname(os.path.dirname(os.path.abspath(__file__))))
HEAD = re.compile(r"(?:unfoldable |abbrev |pub )*(?:(data|record) )?(\S+)( (?:\{[^}]*\} )?: )?")
MEMBER = re.compile(r"\s+(?:pub )?((?:\S+ )+?): ")


def path_of(module):
    """The specs file of a module, or nothing where it is a library's, a proof's or one of src/."""
    found = re.match(r"Rattle\.(\w+)\.specs\.(.+)$", module)
    if not found:
        return None
    path = f"crates/{found[1]}/specs/{found[2].replace('.', '/')}.antt"
    return path if os.path.exists(os.path.join(ROOT, path)) else None


class File:
    def __init__(self, path):
        self.path, self.defs, self.owner, self.names, self.modules = path, [], {}, {}, {}
        for line in open(os.path.join(ROOT, path), encoding="utf-8"):
            line = line.rstrip("\n")
            if not line.strip() or line.lstrip().startswith("--"):
                continue
            if line.startswith(("use ", "pub use ")):
                self.take_use(line.split("use ", 1)[1])
            elif not line.startswith("pub mod"):
                self.take_line(line)

    def take_use(self, text):
        found = re.match(r"(\S+?)\.\{(.*)\}$", text)
        if not found:
            words = text.split()
            self.modules[words[2] if len(words) > 2 else words[0].split(".")[-1]] = words[0]
            return
        for entry in found[2].split(","):
            words = entry.split()
            self.names[words[-1]] = (found[1], words[0])

    def take_line(self, line):
        if line.startswith("infix"):
            return
        if line[0] == " ":
            member = MEMBER.match(line)
            if member and self.defs[-1]["kind"] in ("data", "record"):
                for name in member[1].split():
                    self.owner.setdefault(name, len(self.defs) - 1)
            self.defs[-1]["lines"].append(line)
            return
        found = HEAD.match(line)
        if found[1] or found[3]:
            self.owner[found[2]] = len(self.defs)
            self.defs.append({"name": found[2], "kind": found[1], "lines": []})
        self.defs[-1]["lines"].append(line)


FILES = {}


def file_of(path):
    if path not in FILES:
        FILES[path] = File(path)
    return FILES[path]


def reach(path, name, reached, declared):
    file = file_of(path)
    index = file.owner.get(name)
    if index is None and name in file.names:
        follow(file.names[name], reached, declared)
    if index is None or (path, index) in reached:
        return
    reached.add((path, index))
    text = "\n".join(file.defs[index]["lines"])
    words = set(re.findall(r"[^\s(){};,\"]+", text))
    mixfix = {n for n in list(file.owner) + list(file.names) if "◌" in n and {p for p in n.split("◌") if p} <= words}
    if "do" in words:
        mixfix.add("◌>>=◌")
    for word in words | mixfix:
        tight = word.split(".")
        if word in file.owner:
            reach(path, word, reached, declared)
        for part in (word, tight[0]):
            if part in file.names:
                follow(file.names[part], reached, declared)
        if len(tight) == 2 and tight[0] in file.modules:
            follow((file.modules[tight[0]], tight[1]), reached, declared)


def follow(target, reached, declared):
    module, name = target
    path = path_of(module)
    if path:
        reach(path, name, reached, declared)
    elif ".specs.declared." in module:
        declared.add(module.split(".specs.declared.")[1].split(".")[0])


def main():
    words = [w for w in sys.argv[1:] if w != "-v"]
    reached, declared = set(), set()
    if words:
        reach(words[1], words[0], reached, declared)
    else:
        reach("crates/demand/specs/Demand.antt", "Demand3", reached, declared)
        for name in ("c-numbers", "enums"):
            reach("crates/demand/specs/Answering.antt", name, reached, declared)
    by_file = {}
    for path, index in sorted(reached):
        by_file.setdefault(path, []).append(file_of(path).defs[index])
    total = 0
    for path, defs in by_file.items():
        lines = sum(len(d["lines"]) for d in defs)
        total += lines
        if "-v" in sys.argv:
            print("%5d  %s: %s" % (lines, path, " ".join(d["name"] for d in defs)))
    print("%d lines, %d definitions in %d files; enums of src/: %s" % (total, len(reached), len(by_file), ", ".join(sorted(declared))))


main()

#!/usr/bin/env python3
"""What the crates say now beside what they said at a commit: public signatures with their clauses, types, definitions of specs/ and
statements of the lemmas in proofs/ that README or docs/ named, each old and new, as Markdown.

    python3 tools/design/statements.py COMMIT > statements.md

By text alone, from `git show`: moved text counts as gone in one place and new in another, and is put together where the name is the same."""
import re
import subprocess
import sys

old = sys.argv[1]


def git(*a):
    return subprocess.run(["git", *a], capture_output=True, text=True, check=True).stdout


def squeeze(s):
    return re.sub(r"\s+", " ", s).strip()


def bare(s, mark):
    return "\n".join(re.sub(rf"(^|\s){mark}.*", "", line) for line in s.split("\n"))


def functions(crate, s):
    s = bare(s, "//")
    owner = ""
    for m in re.finditer(r"^impl(?:<[^>]*>)? (?:[\w:<>', ]+ for )?(\w+)[^{\n]*\{$|^( *)pub fn (\w+)", s, re.M):
        if m.group(1):
            owner = m.group(1)
            continue
        pad = m.group(2)
        e = re.compile(rf"^{pad}\{{$|(?<=\S) \{{$", re.M).search(s, m.end())
        if not e:
            continue
        name = f"{crate}::{owner + '::' if pad else ''}{m.group(3)}"
        yield name, squeeze(s[m.start():e.start()])


def types(crate, s):
    s = bare(s, "//")
    for m in re.finditer(r"^((?:#\[[^\n]*\]\n)*)pub (?:struct|enum|type) (\w+)[^{;\n]*(?:\{.*?^\}|;|\{[^\n]*\})", s, re.S | re.M):
        yield f"{crate}::{m.group(2)}", squeeze(m.group(0))


def definitions(crate, file, s):
    s = bare(s, "--")
    for m in re.finditer(r"^(?:abbrev pub|unfoldable pub|pub record|pub data|pub abbrev|pub unfoldable) (\S+)[^\n]*(?:\n(?!\n)[^\n]*)*", s, re.M):
        yield f"{crate} {m.group(1)}", squeeze(m.group(0))


def lemmas(crate, file, s):
    s = bare(s, "--")
    for m in re.finditer(r"^ *pub ([\w'\-◌≡⊕⊗≐⊑⊒]+) : ([^\n]*(?:\n +(?:→|×|\(|\{)[^\n]*)*)", s, re.M):
        yield f"{crate} {file} {m.group(1)}", squeeze(m.group(2))


def collect(read, names):
    found = [{}, {}, {}, {}]
    for f in names:
        p = f.split("/")
        if p[0] != "crates" or len(p) < 4:
            continue
        if p[2] == "src" and f.endswith(".rt"):
            s = read(f)
            found[0].update(functions(p[1], s))
            found[1].update(types(p[1], s))
        elif p[2] == "specs" and f.endswith(".antt"):
            found[2].update(definitions(p[1], p[-1][:-5], read(f)))
        elif p[2] == "proofs" and len(p) == 4 and f.endswith(".antt"):
            found[3].update(lemmas(p[1], p[-1][:-5], read(f)))
    return found


def cell(s):
    return "`" + s.replace("|", "\\|").replace("`", "'") + "`" if s else "-"


then = collect(lambda f: git("show", f"{old}:{f}"), git("ls-tree", "-r", "--name-only", old).split("\n"))
now = collect(lambda f: open(f).read(), git("ls-files").split("\n"))
pages = [f for f in git("ls-tree", "-r", "--name-only", old, "README.md", "docs").split("\n") if f.endswith(".md") and "PORT" not in f]
named = set(re.findall(r"`([^`\n]+)`", "".join(git("show", f"{old}:{f}") for f in pages)))
for title, a, b in zip(["Public functions", "Public types", "Definitions", "Lemmas"], then, now):
    changed = [k for k in a if b.get(k) != a[k]] + [k for k in b if k not in a]
    if title == "Lemmas":
        # Those that README or docs/ named; of the others the names of those that are gone.
        gone = {}
        for k in a:
            if k not in b and not any(k.split()[2] == n.split()[2] and k.split()[0] == n.split()[0] for n in b):
                gone.setdefault(k.split()[0], []).append(k.split()[2])
        changed = [k for k in changed if k in a and k.split()[2] in named]
    print(f"### {title}\n\n{len(a)} then, {len(b)} now; the same {sum(b.get(k) == a[k] for k in a)}, changed {sum(k in b and b[k] != a[k] for k in a)}, "
          f"gone {sum(k not in b for k in a)}, new {sum(k not in a for k in b)}.\n\n| | old | new |\n|---|---|---|")
    for k in sorted(changed):
        print(f"| {k} | {cell(a.get(k, ''))} | {cell(b.get(k, ''))} |")
    print()
    if title == "Lemmas":
        print("The lemmas that are gone, by crate:\n")
        for c in sorted(gone):
            print(f"- `{c}`: {', '.join(gone[c])}")

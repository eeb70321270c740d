#!/usr/bin/env python3
"""Counts the places of the design pass (docs/DESIGN-PASS.md) in crates/*/src and crates/*/proofs.

    python3 tools/design/count.py [--list] [TOP]

--list names each place. A place that is kept is still counted: docs/DESIGN-PASS.md has the reason."""
import collections
import glob
import os
import re
import sys

top = next((a for a in sys.argv[1:] if not a.startswith("-")), ".")
listing = "--list" in sys.argv
os.chdir(top)

sources = {f: open(f).read() for f in sorted(glob.glob("crates/*/src/**/*.rt", recursive=True))}
plain = {f: re.sub(r"//.*", "", s) for f, s in sources.items()}


def say(point, what, places):
    print(f"{point:3} {len(places):4}  {what}")
    if listing:
        for p in places:
            print(f"          {p}")


def where(f, s, at):
    return f"{f[7:]}:{s.count(chr(10), 0, at) + 1}"


def functions(s):
    """Each function with a body: name, parameters, answer, clauses, body, where it begins."""
    for m in re.finditer(r"^( *)(?:pub(?:\(crate\))? )?(?:unsafe )?(?:extern \"C\" )?fn (\w+)(<[^(]*>)?\(", s, re.M):
        depth, i = 1, m.end()
        while depth:
            depth += {"(": 1, ")": -1}.get(s[i], 0)
            i += 1
        head = re.compile(r"^" + m.group(1) + r"\{$|\{$|\{\n", re.M)
        b = re.compile(r"^" + m.group(1) + r"\{\n|(?<=[^\n]) \{\n", re.M).search(s, i)
        e = re.compile(r"^" + m.group(1) + r"\}", re.M).search(s, b.end()) if b else None
        if b and e:
            yield m.group(2), s[m.end():i - 1], s[i:b.start()], s[b.end():e.start()], m.start()


# 1. Own enums of the shape of Option or Result: one of the variants says that there is nothing, or that it is refused.
none = "Ill|Refused|Missing|Nowhere|Stop|No|Broken|Free|Absent|Unlisted|Full|Shut|Stuck|Hit|Nothing|Unknown|End"
enums = []
for f, s in plain.items():
    for m in re.finditer(r"^(?:pub(?:\(crate\))? )?enum (\w+)[^{]*\{(.*?)^\}", s, re.S | re.M):
        if re.search(rf"^\s*(?:{none})\b", m.group(2), re.M):
            enums.append(f"{where(f, s, m.start())} {m.group(1)}")
say("1a", "enums with a variant for none or for a refusal", enums)

flags = []
for f, s in plain.items():
    for m in re.finditer(r"^(?:pub(?:\(crate\))? )?struct (\w+)[^{;]*\{(.*?)^\}", s, re.S | re.M):
        if re.search(r": bool,", m.group(2)):
            flags.append(f"{where(f, s, m.start())} {m.group(1)}")
say("1b", "structs with a flag beside values", flags)

steps = r"\b(?:\w+::)?(?:emit\w*|cover_step|by_member|after\w*)\("
codes = []
for f, s in plain.items():
    for m in re.finditer(steps + r"\s*(?:\w+,\s*){1,2}(\d+),", s):
        codes.append(f"{where(f, s, m.start())} {m.group(1)}")
say("1c", "rules that are handed on as bare numbers", codes)

tests = []
for f, s in plain.items():
    for m in re.finditer(r"\bif !(?:\w+::)?is_done\(|\b(?:\w+::)?step_of\(|=> (?:\w+::)*\w+::Refused\(\w\),?$", s, re.M):
        tests.append(where(f, s, m.start()))
say("1d", "refusals and failures that are handed up by hand", tests)

# 2. Twins: functions whose bodies are the same but for names of types, numbers and their own name.
shapes = collections.defaultdict(list)
for f, s in plain.items():
    for name, params, after, body, at in functions(s):
        t = re.sub(rf"\b{name}\b", "F", re.sub(r":\s*[^,=;]+?(?=[,=;])", "", params) + "|" + body)
        t = re.sub(r"\b(?:0x[0-9a-fA-F_]+|\d[\d_]*)(?:u8|u16|u32|u64|usize)?\b", "0", t)
        t = re.sub(r"\b(?:u8|u16|u32|u64|usize)\b", "T", t)
        t = re.sub(r"\b(?:Faces|Intervals)\b", "S", t)
        t = re.sub(r'b?"[^"]*"', '""', t)
        t = re.sub(r"\s+", "", t)
        if len(t) > 12:
            shapes[t].append(f"{where(f, s, at)} {name}")
twins = [" = ".join(v) for v in shapes.values() if len(v) > 1 and not all("exports" in x for x in v)]
say("2a", "groups of functions with one body but for types, numbers and names", twins)

sizes = []
for f, s in plain.items():
    for m in re.finditer(r"^ *(?:pub(?:\(crate\))? )?fn (wide|small|medium|large|full|\w+?(?:2|3|4|8|16|64|_two|_three))[(<]", s, re.M):
        sizes.append(f"{where(f, s, m.start())} {m.group(1)}")
say("2b", "functions named for a size", sizes)

# 3. Loops.
loops = [(f, s, m) for f, s in plain.items() for m in re.finditer(r"^( *)(?:'\w+: )?while (.*?)\{\n(.*?)^\1\}", s, re.S | re.M)]
counted = []
for f, s, m in loops:
    for v in re.findall(r"\b(\w+)\b", m.group(2)):
        if re.search(rf"\b{v} (?:\+=|-=) 1;|\b{v} = {v} [+-] 1;", m.group(3)):
            counted.append(f"{where(f, s, m.start())} while {m.group(2).strip()}")
            break
say("3a", "while loops that count an index", counted)
say("3b", "other while loops", [f"{where(f, s, m.start())} while {m.group(2).strip()}" for f, s, m in loops
                                if f"{where(f, s, m.start())} while {m.group(2).strip()}" not in counted])

# 4. Equality, order, copying, conversion and printing by hand.
hand = r"same|larger|less|earlier|either|wide|low|high|is_done|step_of|is_none|is_full|is_literal|opposite|one_unless|copy|clear|length|number|decimal|with_size|first|next"
byhand = []
for f, s in plain.items():
    for m in re.finditer(rf"^ *(?:pub(?:\(crate\))? )?fn ({hand})\(", s, re.M):
        byhand.append(f"{where(f, s, m.start())} {m.group(1)}")
say("4a", "functions named for what a derive or the library does", byhand)
alike = []
for f, s in plain.items():
    for m in re.finditer(r"match \w[^{\n]*\{\n((?:\s+[\w:]+(?:\([\w, ]*\))? => (?:true|false),?\n)+)\s*\}", s):
        alike.append(where(f, s, m.start()))
say("4b", "matches that answer true or false by variant", alike)

# 5. Facts and parameters that go together.
facts, pairs = collections.defaultdict(set), collections.defaultdict(set)
for f, s in plain.items():
    for name, params, after, body, at in functions(s):
        for r in re.findall(r"requires(?: \w+)? \{ (.*?) \}\n", after + "\n"):
            for x in re.split(r" × ", r):
                facts[re.sub(r"^\(|\)$", "", x.strip())].add(f"{where(f, s, at)} {name}")
        ps = [re.sub(r"\s+", " ", p.strip()) for p in params.split(",") if p.strip()]
        for a, b in zip(ps, ps[1:]):
            if "self" not in a:
                pairs[(a, b)].add(f"{where(f, s, at)} {name}")
often = sorted(((k, v) for k, v in facts.items() if len(v) > 2), key=lambda x: -len(x[1]))
say("5a", "facts in the requires of three or more functions", [f"{len(v)} x {k}" for k, v in often])
say("5b", "functions with such a fact", sorted({x for k, v in often for x in v}))
travel = sorted(((k, v) for k, v in pairs.items() if len(v) > 2), key=lambda x: -len(x[1]))
say("5c", "pairs of parameters that follow one another in three or more functions", [f"{len(v)} x {', '.join(k)}" for k, v in travel])

# 6. Buffers with a length or a place beside them, parallel arrays.
beside = []
for f, s in plain.items():
    for name, params, after, body, at in functions(s):
        ps = [re.sub(r"\s+", " ", p.strip()) for p in params.split(",") if p.strip()]
        for a, b in zip(ps, ps[1:]):
            if re.search(r": &(?:mut )?\[", a) and re.match(r"(?:n|m|k|to|at|from|o|len|count): usize", b):
                beside.append(f"{where(f, s, at)} {name}({a}, {b})")
                break
say("6a", "functions with a slice and a length or place beside it", beside)
parallel = []
for f, s in plain.items():
    for name, params, after, body, at in functions(s):
        arrays = re.findall(r": (&(?:mut )?\[\w+; \d+\])", params)
        if any(arrays.count(a) > 1 for a in arrays):
            parallel.append(f"{where(f, s, at)} {name}")
say("6b", "functions with parallel arrays", parallel)

# 7. Switches on which step to run: a function that goes by a number or a letter through calls of one function.
switches = []
for f, s in plain.items():
    for m in re.finditer(r"match \w[^{\n]*\{\n((?:\s+\w+ => ([\w:]+)\(.*\),?\n){3,})\s*\}", s):
        calls = set(re.findall(r"=> ([\w:]+)\(", m.group(1)))
        if len(calls) == 1 and not calls & {"Some", "Ok", "Err"}:
            switches.append(where(f, s, m.start()))
say("7", "matches whose arms call one function", switches)

# 8. Proofs: lemmas that nothing cites, and answers that only call the search.
texts = {f: open(f).read() for f in glob.glob("crates/**/*.antt", recursive=True) + glob.glob("crates/**/*.rt", recursive=True)
         + glob.glob("docs/*.md") + ["README.md"] if "/out/" not in f and not f.endswith("DESIGN-PASS.md")}
words = collections.Counter(w for s in texts.values() for w in set(re.findall(r"[\w'◌≡≤<+\-]+", s)))
unused = []
for f in sorted(glob.glob("crates/*/proofs/*.antt")):
    s = texts[f]
    for m in re.finditer(r"^(?:abbrev |unfoldable )?(?:pub )([\w'\-]+) :", s, re.M):
        n = m.group(1)
        here = len(re.findall(rf"(?<![\w'\-]){re.escape(n)}(?![\w'\-])", s))
        own = len(re.findall(rf"^(?:abbrev |unfoldable )?(?:pub )?{re.escape(n)}(?![\w'\-])", s, re.M))
        if words[n] < 2 and here <= own:
            unused.append(f"{f[7:]} {n}")
say("8a", "lemmas that nothing cites", unused)
searched = []
for f in sorted(glob.glob("crates/*/proofs/**/Answers.antt", recursive=True)):
    for m in re.finditer(r"^([\w\-]+)(?: t)? c = (?:search rules|tt|refl|grind|omega arith)$", texts[f], re.M):
        searched.append(f"{f[7:]} {m.group(1)}")
say("8b", "answers that only call a tactic", searched)
lines = sum(texts[f].count("\n") for f in texts if f.startswith("crates/") and "/proofs/" in f)
print(f" 8c {lines}  lines of proofs")

#!/usr/bin/env python3
"""Prints where the gate's time went, as a table, from what the older kit's `rt ci` printed: times.py LOG

It reads lines such as `rt: formula proved (19 s)` and `rt: must-fail formula/put_at_the_front: refused (27 s)`. Today's
`rt ci` prints no seconds, and nothing of its log is read here.

For each crate the seconds of its check, of its program's run, and of its must-fail edits (how many, in all, the longest). Crates
of one level and edits ran two at a time, so the sums are larger than the time on the clock."""
import re
import sys

LINE = re.compile(r"^rt: (?:must-fail (\w+)/(\w+): refused.*?(\d+) s\)|(\w+) (?:proved|ran.*) \((\d+) s\))")


def read(path):
    crates, last = {}, ""
    for line in open(path, encoding="utf-8"):
        found = LINE.match(line)
        if found:
            name = found.group(1) or found.group(4)
            row = crates.setdefault(name, {"check": 0, "run": 0, "edits": {}})
            if found.group(1):
                row["edits"][found.group(2)] = int(found.group(3))
            else:
                row["run" if " ran" in line else "check"] = int(found.group(5))
        if re.match(r"^\d+ passed, \d+ failed$", line):
            last = line.strip()
    return crates, last


def main():
    crates, last = read(sys.argv[1])
    print("| crate | check | run | edits | in all | longest |\n|---|---|---|---|---|---|")
    sums = [0, 0, 0, 0]
    for name, row in crates.items():
        edits = row["edits"].values()
        cells = [row["check"], row["run"], len(edits), sum(edits)]
        sums = [a + b for a, b in zip(sums, cells)]
        shown = [str(n) if n else "" for n in cells] + [str(max(edits)) if edits else ""]
        print(f"| `{name}` | " + " | ".join(shown) + " |")
    print("| all | " + " | ".join(map(str, sums)) + " | |")
    print(f"\n{len(crates)} crates, {last}")


main()

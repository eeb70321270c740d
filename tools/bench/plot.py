#!/usr/bin/env python3
"""Draws docs/benchmark.svg from the tables of docs/BENCHMARK.md: one bar for each row that has both times, on a log scale.

    python3 tools/bench/plot.py            writes docs/benchmark.svg anew
    python3 tools/bench/plot.py --check    says whether docs/benchmark.svg is what the tables give

A bar reaches from our time to the Rust's. Its end with a disc is ours, the end with a ring the Rust's; it is blue where ours is
the lower one, red where the Rust's is. Rows stand in the order of the tables, under the tables' titles. Only the Python library
is used.
"""
import html
import math
import pathlib
import re
import statistics
import sys

ROOT = pathlib.Path(__file__).resolve().parents[2]
TABLES = ROOT / "docs/BENCHMARK.md"
PICTURE = ROOT / "docs/benchmark.svg"

WIDTH, LEFT, RIGHT = 960, 372, 908  # the picture, and where its scale begins and ends
TOP, ROW, HEAD, FOOT = 104, 10.5, 25, 30  # heights: above the first table, of a row, of a title, below the last row
LOWEST, HIGHEST = -1.3, 7.3  # the scale, in powers of ten of a microsecond; it begins lower where a time does
MARKS = {-3: "1 ns", -2: "10 ns", -1: "0.1 µs", 0: "1 µs", 1: "10 µs", 2: "100 µs", 3: "1 ms", 4: "10 ms", 5: "100 ms", 6: "1 s", 7: "10 s"}
LABEL, TITLE = 82, 112  # the longest texts, in letters
FASTER, SLOWER, INK, PALE = "#1f5fbf", "#c0392b", "#222222", "#d9dde2"


class Row:
    def __init__(self, label, ours, rust, ratio, call):
        self.label, self.ours, self.rust, self.ratio, self.call = label, ours, rust, ratio, call


def cells(line):
    return [cell.strip().replace("`", "") for cell in line.strip().strip("|").split("|")]


def time(text):
    """Microseconds, or nothing where the row has none."""
    return None if text == "-" else float(text.replace(",", ""))


def tables(text):
    """The tables that have both times: title and rows."""
    found, section, words, lines = [], "", "", text.splitlines()
    i = 0
    while i < len(lines):
        line = lines[i]
        if line.startswith("## "):
            section, words = line[3:], ""
        elif line.startswith("|"):
            head = cells(line)
            i += 2
            body = []
            while i < len(lines) and lines[i].startswith("|"):
                body.append(cells(lines[i]))
                i += 1
            found.append((title(section, words), head, body))
            words = ""
            continue
        elif line.strip():
            words = f"{words} {line.strip()}".strip() if lines[i - 1].strip() else line.strip()
        i += 1
    return [(name, rows(head, body)) for name, head, body in found if rows(head, body)]


def title(section, words):
    """What stands before the table, up to a colon, behind the section that it is in."""
    words = words.replace("`", "").split(":")[0]
    whole = f"{section}: {words}" if section else words
    if len(whole) > TITLE:
        whole = whole[: whole.rfind(", ", 0, TITLE)]
    return whole


def rows(head, body):
    """The rows with both times; the ledger's length goes into the label where the table has several."""

    def column(start):
        return next((i for i, name in enumerate(head) if name.startswith(start)), None)

    ours, rust, ratio, ledger = column("ours"), column("Rust"), column("ratio"), column("ledger, bytes")
    rust = column("plain Rust") if rust is None else rust
    if ours is None or rust is None or ratio is None:
        return []
    several = ledger is not None and len({row[ledger] for row in body}) > 1
    found = []
    for row in body:
        if time(row[ours]) and time(row[rust]):
            label = f"{row[0]}; {int(row[ledger]):,} bytes" if several else row[0]
            found.append(Row(label, time(row[ours]), time(row[rust]), float(row[ratio]), head[0] == "call"))
    return found


def shortened(label):
    if len(label) <= LABEL:
        return label
    front = LABEL * 11 // 20
    return f"{label[:front].rstrip()} .. {label[front + 4 - LABEL:].lstrip()}"


def said(us):
    """A time with its unit."""
    for unit, size in (("s", 1e6), ("ms", 1e3)):
        if us >= size:
            return f"{us / size:.3g} {unit}"
    return f"{us:.3g} µs"


def lowest(found):
    """Where the scale begins for these rows."""
    return min(LOWEST, math.log10(min(min(row.ours, row.rust) for row in found)) - 0.3)


def across(us, low):
    return LEFT + (RIGHT - LEFT) * (math.log10(us) - low) / (HIGHEST - low)


def ratio_text(ratio):
    return "< 0.01" if ratio < 0.01 else f"{ratio:.2f}" if ratio < 10 else f"{ratio:.0f}"


def text(x, y, words, size, more=""):
    return f'<text x="{x:g}" y="{y:g}" font-size="{size}"{more}>{html.escape(words)}</text>'


def bar(row, y, low):
    ours, rust = across(row.ours, low), across(row.rust, low)
    color = FASTER if row.ours <= row.rust else SLOWER
    tip = f"{row.label}: ours {said(row.ours)}, Rust {said(row.rust)}, ratio {ratio_text(row.ratio)}"
    return [
        f"<g><title>{html.escape(tip)}</title>",
        text(LEFT - 8, y + 3, shortened(row.label), 8.5, ' text-anchor="end"'),
        f'<line x1="{ours:.1f}" y1="{y:g}" x2="{rust:.1f}" y2="{y:g}" stroke="{color}" stroke-width="3.4"/>',
        f'<circle cx="{ours:.1f}" cy="{y:g}" r="3.1" fill="{color}"/>',
        f'<circle cx="{rust:.1f}" cy="{y:g}" r="2.6" fill="white" stroke="{color}" stroke-width="1.3"/>',
        text(WIDTH - 8, y + 3, ratio_text(row.ratio), 8.5, f' text-anchor="end" fill="{color}"'),
        "</g>",
    ]


def marks(low):
    """The marks of the scale, and where they stand."""
    return [(across(10.0**power, low), mark) for power, mark in MARKS.items() if power > low]


def scale(y, below, low):
    """The marks of the scale at its top or foot."""
    return [text(x, y + (11 if below else -4), mark, 9, ' text-anchor="middle"') for x, mark in marks(low)]


def legend():
    lines = []
    y = 74
    for x, color, words in ((12, FASTER, "from ours (disc) to the Rust (ring): ours is faster"), (340, SLOWER, "the Rust is faster")):
        lines += [
            f'<line x1="{x + 3}" y1="{y}" x2="{x + 29}" y2="{y}" stroke="{color}" stroke-width="3.4"/>',
            f'<circle cx="{x + 3 if color == FASTER else x + 29}" cy="{y}" r="3.1" fill="{color}"/>',
            f'<circle cx="{x + 29 if color == FASTER else x + 3}" cy="{y}" r="2.6" fill="white" stroke="{color}" stroke-width="1.3"/>',
            text(x + 38, y + 3, words, 10),
        ]
    return [*lines, text(WIDTH - 8, TOP - 12, "ratio", 9, ' text-anchor="end"')]


def counted(found, name):
    median = statistics.median(row.ratio for row in found)
    return f"{len(found)} {name}: median of the ratios {median:.2f}, ours slower in {sum(row.ours > row.rust for row in found)}"


def drawn(groups):
    height = TOP + sum(HEAD + ROW * len(found) for _, found in groups) + FOOT
    every = [row for _, found in groups for row in found]
    calls = [row for row in every if row.call]
    low = lowest(every)
    lines = [
        f'<svg xmlns="http://www.w3.org/2000/svg" viewBox="0 0 {WIDTH} {height:g}" width="{WIDTH}" height="{height:g}" '
        f'font-family="DejaVu Sans, Arial, Helvetica, sans-serif" fill="{INK}">',
        f'<rect width="{WIDTH}" height="{height:g}" fill="white"/>',
        text(12, 26, "Times of our library beside the Rust's, log scale", 15, ' font-weight="bold"'),
        text(12, 50, f"{counted(calls, 'calls')}. In all tables together {counted(every, 'rows')}.", 10),
        *legend(),
    ]
    for x, _ in marks(low):
        lines.append(f'<line x1="{x:.1f}" y1="{TOP - 8}" x2="{x:.1f}" y2="{height - FOOT + 4:g}" stroke="{PALE}" stroke-width="1"/>')
    lines += scale(TOP - 8, False, low) + scale(height - FOOT + 4, True, low)
    y = TOP
    for name, found in groups:
        middle = statistics.median(row.ratio for row in found)
        lines += [
            f'<rect x="6" y="{y + 4:g}" width="{WIDTH - 12}" height="{HEAD - 9}" fill="#eef1f5"/>',
            text(12, y + 15.5, name, 10, ' font-weight="bold"'),
            text(WIDTH - 8, y + 15.5, f"median {ratio_text(middle)}", 9, ' text-anchor="end"'),
        ]
        y += HEAD
        for row in found:
            lines += bar(row, y + ROW / 2 - 1, low)
            y += ROW
    return "\n".join([*lines, "</svg>"]) + "\n"


def main(arguments):
    picture = drawn(tables(TABLES.read_text(encoding="utf-8")))
    if arguments == ["--check"]:
        if PICTURE.exists() and PICTURE.read_text(encoding="utf-8") == picture:
            print("docs/benchmark.svg is what the tables of docs/BENCHMARK.md give")
            return 0
        print("docs/benchmark.svg is not what the tables of docs/BENCHMARK.md give; python3 tools/bench/plot.py writes it")
        return 1
    if arguments:
        print(__doc__)
        return 2
    PICTURE.write_text(picture, encoding="utf-8")
    return 0


if __name__ == "__main__":
    sys.exit(main(sys.argv[1:]))

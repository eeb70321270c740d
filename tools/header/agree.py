"""Compares include/linefeijoa.h, bindings/rust and docs/REFUSALS.md with the exported functions and with each other; and
the examples that README.md quotes.

usage: agree.py SEEN SYMBOLS     what the check printed, and the archive's symbols by `nm -g --defined-only`
"""
import re
import sys
from pathlib import Path

ROOT = Path(__file__).resolve().parents[2]
problems = []


def read(path):
    return (ROOT / path).read_text()


def spaced(text):
    return " ".join(text.split())


def same(what, have, want):
    """Both by names: what is in one alone, or differs."""
    for name in sorted(have.keys() | want.keys(), key=str):
        if have.get(name) != want.get(name):
            problems.append(f"{what}: {name} is {have.get(name)}, expected {want.get(name)}")


def arguments(text):
    return [a for a in (spaced(a) for a in text.split(",")) if a]


# The exported functions, as C has them: a slice is a pointer and a length, and every answer is a signed number.
C_TYPES = {"&[u8]": ("const uint8_t *", "size_t "), "&mut [u8]": ("uint8_t *", "size_t "), "u64": ("uint64_t ",)}
RUST_TYPES = {"const uint8_t *": "*const u8", "uint8_t *": "*mut u8", "size_t ": "usize", "uint64_t ": "u64"}


def exported():
    out = {}
    for path in sorted((ROOT / "crates/exports_c/src").glob("**/*.rt")):
        for name, args, result in re.findall(r'pub extern "C" fn (\w+)\s*\(([^)]*)\)\s*->\s*(\S+)', path.read_text()):
            parts = []
            for argument in arguments(args):
                word, kind = argument.split(": ")
                parts += [f"{c}{w}" for c, w in zip(C_TYPES[kind], (word, f"{word}_len"))]
            assert result == "u64", f"{name} answers {result}"
            out[name] = ("int64_t", parts)
    return out


def plain(header):
    return re.sub(r"^#.*$", "", re.sub(r"/\*.*?\*/", "", header, flags=re.S), flags=re.M)


def declared(header):
    found = re.findall(r"^(?!static)(\w[\w ]*?)\s+(lf_\w+)\s*\(([^)]*)\)\s*;", plain(header), flags=re.M)
    return {name: (result, arguments(args)) for result, name, args in found}


def declared_in_rust(source):
    block = re.search(r'unsafe extern "C" \{(.*?)\n\}', source, flags=re.S).group(1)
    found = re.findall(r"fn (\w+)\(([^)]*)\) -> (\w+);", block)
    return {name: (result, arguments(args)) for name, args, result in found}


def in_rust(functions):
    def turned(argument):
        kind = next(c for c in RUST_TYPES if argument.startswith(c))
        return f"{argument[len(kind):]}: {RUST_TYPES[kind]}"

    return {name: ("i64", [turned(a) for a in args]) for name, (_, args) in functions.items()}


def helpers(header):
    return set(re.findall(r"^static inline [\w *]*?(lf_\w+)\(", plain(header), flags=re.M))


def refusals_said(header):
    """What the comment in front of each declaration says that refuses it."""
    out = {}
    for comment, name in re.findall(r"/\*((?:(?!\*/).)*)\*/\s*int64_t (lf_\w+)\(", header, flags=re.S):
        # `10 as -(10 + 16 * n)` and the 8 and 9 of entails name their numbers in the sentence.
        said = re.findall(r"[Rr]efused by (.*)", spaced(comment.replace("\n *", "\n")))
        numbers = set()
        for sentence in said:
            sentence = re.sub(r"-\(.*?\)", "", sentence)
            for first, last in re.findall(r"\b(\d+) to (\d+)\b", sentence):
                numbers |= set(range(int(first), int(last) + 1))
            numbers |= {int(n) for n in re.findall(r"\b\d+\b", sentence)}
        out[name] = sorted(numbers)
    return out


def refusals_seen(lines):
    """What each function was seen to be refused by."""
    words = [line.split() for line in lines if line.startswith("lf_")]
    return {name: sorted(int(n) for n in numbers) for name, *numbers in words}


def table():
    """The rows of docs/REFUSALS.md: number, C name, Rust name, meaning, what to do."""
    rows = re.findall(r"^\| (\d+) \| `(\w+)` \| `(\w+)` \| (.+?) \| (.+?) \|$", read("docs/REFUSALS.md"), flags=re.M)
    return [(int(number), *words) for number, *words in rows]


def words_in_c(header):
    values = re.search(r"enum lf_refusal \{(.*?)\};", header, flags=re.S).group(1)
    spoken = re.findall(r"/\*(.*?)\*/\s*(\w+) = (\d+)", values, flags=re.S)
    comments = {int(n): (name, spaced(words.replace("\n     *", " "))) for words, name, n in spoken}
    cases = re.findall(r'case (\w+):\s*return ((?:"[^"]*"\s*)+);', header)
    meanings = {name: "".join(re.findall(r'"([^"]*)"', words)) for name, words in cases}
    return comments, meanings


def words_in_rust(source):
    variants = re.search(r"pub enum Refusal \{(.*?)\n\}", source, flags=re.S).group(1)
    spoken = re.findall(r"((?:\s*///.*\n)+)\s*(\w+)(?:\(\w+\))?,", variants)
    documented = {name: spaced(comment.replace("///", "")) for comment, name in spoken}
    # A string may go on in the next line.
    joined = re.sub(r"\\\n\s*", "", source)
    rows = re.findall(r'Self::(\w+)(?:\(_\))? => \{?\s*\(\s*(\d+),\s*"([^"]*)",\s*"([^"]*)",?\s*\)', joined)
    said = {name: (int(n), meaning, remedy) for name, n, meaning, remedy in rows}
    return documented, said


def quoted(path):
    """An example that README.md begins to quote, in a fence or indented, is quoted to its end."""
    lines, told = read(path).splitlines(), read("README.md").splitlines()
    indented = [f"    {line}" if line else line for line in lines]
    for way in (lines, indented):
        for i in (i for i, line in enumerate(told) if line == way[0]):
            if told[i : i + len(way)] != way:
                problems.append(f"README.md quotes {path} otherwise")


def main():
    seen, symbols = (Path(name).read_text().splitlines() for name in sys.argv[1:3])
    header = read("include/linefeijoa.h")
    functions = exported()

    same("linefeijoa.h", declared(header), functions)
    same("raw.rs", declared_in_rust(read("bindings/rust/src/raw.rs")), in_rust(functions))
    archived = {line.split()[-1] for line in symbols if " T " in line}
    same("libexports.a", dict.fromkeys(archived, 1), dict.fromkeys(functions, 1))

    met = refusals_seen(seen)
    same("called", dict.fromkeys(met, 1), dict.fromkeys(functions.keys() | helpers(header), 1))
    same("refusals of", {name: met.get(name) for name in functions}, refusals_said(header))

    rows = table()
    comments, meanings = words_in_c(header)
    documented, said = words_in_rust(read("bindings/rust/src/refusal.rs"))
    same("refusals in C", comments, {n: (c, f"{meaning}; {remedy}") for n, c, _, meaning, remedy in rows})
    same("meanings in C", meanings, {c: meaning for _, c, _, meaning, _ in rows})
    same("refusals in Rust", said, {r: (n, meaning, remedy) for n, _, r, meaning, remedy in rows})
    same("words in Rust", documented, {r: f"{n}: {meaning}; {remedy}." for n, _, r, meaning, remedy in rows})

    limits = dict(re.findall(r"^#define LF_(\w+) (\d+)", header, flags=re.M))
    consts = re.findall(r"^pub const (\w+): \w+ = ([\d_]+);", read("bindings/rust/src/limits.rs"), flags=re.M)
    same("limits in Rust", {name: number.replace("_", "") for name, number in consts}, limits)

    for path in ["examples/c/first.c", "bindings/rust/examples/first.rs"]:
        quoted(path)

    for problem in problems:
        print(problem)
    counts = f"{len(functions)} functions, {len(rows)} refusals and {len(limits)} limits"
    print(f"{counts} in C and in Rust, {len(problems)} differences")
    sys.exit(1 if problems else 0)


main()

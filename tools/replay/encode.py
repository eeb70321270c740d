#!/usr/bin/env python3
"""Turns samples of the oracle (tools/oracle/README.md) into the standard input of the program `replay`.

usage: encode.py [STDIN STDOUT SAMPLE ..]     unless said: crates/replay/stdin and stdout, from tools/oracle/sample/lists.txt and deep.txt

All numbers have the lowest byte first. A word is four bytes, and is one number or two of two bytes each (low, high).
The file is lists, one behind the other, and ends behind the last; where a reader gets zeros for a list's number, it is at the end.

A list:
    word      its number, from 1 on over all samples
    word      the ledger's length; the ledger is that many zero bytes
    word      how many calls follow
    word      how many of the ledger's bytes are summed after the last call: 4 + L, or the length where that is less; the others are zero
    word      the sum of these bytes: A low, B high
    calls
    word      how many bytes of the ledger after the last call follow: all that are summed where the sample has them, else 0
    these bytes

A call:
    byte      its kind: 0 face, 1 interval, 2 boundary, 3 endpoint, 4 forall, 5 face-shift, 6 interval-shift, 7 face-substitute,
              8 interval-substitute, 9 entails
    byte      for endpoint 1 where the end is i1, else 0
    2 bytes   0
    word      d or k; 0 for boundary
    word      the lengths of the output slices, low and high; 0 for one that the call does not have
    word      the lengths of the operands, low and high; the second is 0 where the call has one
    word      the answer: 1 to 9 for a refusal, 16 + the step's number for a yes
    word      the lengths of the results, low and high; 0 for one that the call does not have, and where it is refused
    the first operand's bytes, then the second's, then those of the results

A sum goes over its bytes from A = 1, B = 0: A becomes (A + byte) mod 65521, then B becomes (B + A) mod 65521.

STDOUT gets what the program prints where all agrees: how often each call and each answer came up, lists, calls, no difference."""
import collections
import pathlib
import sys

ROOT = pathlib.Path(__file__).resolve().parents[2]
MODULUS = 65521
YES = 16

# Each call: whether it has d or k, a side, how many outputs and operands. In the order of their kinds.
CALLS = {
    "face": (True, False, 0, 1),
    "interval": (True, False, 0, 1),
    "boundary": (False, False, 2, 1),
    "endpoint": (True, True, 0, 2),
    "forall": (True, False, 1, 1),
    "face-shift": (True, False, 1, 1),
    "interval-shift": (True, False, 1, 1),
    "face-substitute": (True, False, 1, 2),
    "interval-substitute": (True, False, 1, 2),
    "entails": (True, False, 0, 2),
}
KINDS = list(CALLS)


def word(n):
    return n.to_bytes(4, "little")


def two(low, high):
    return low.to_bytes(2, "little") + high.to_bytes(2, "little")


def pair(numbers):
    """One or two numbers, or none, in a word."""
    low, high = (list(numbers) + [0, 0])[:2]
    return two(low, high)


def total(data):
    a, b = 1, 0
    for byte in data:
        a = (a + byte) % MODULUS
        b = (b + a) % MODULUS
    return a, b


def unhex(text):
    return b"" if text == "-" else bytes.fromhex(text)


def answer(words):
    """The answer's word and the result formulas."""
    if words[0] == "refused":
        return int(words[1]), []
    return YES + int(words[1]), [unhex(w) for w in words[2:]]


def call(line, answer_line):
    """The bytes of one call with its answer."""
    words = line.split(" ")
    has_number, has_side, outputs, operands = CALLS[words[0]]
    rest = iter(words[1:])
    number = int(next(rest)) if has_number else 0
    side = int(next(rest)) if has_side else 0
    rooms = [int(next(rest)) for _ in range(outputs)]
    given = [unhex(next(rest)) for _ in range(operands)]
    assert next(rest, None) is None, line
    said, results = answer(answer_line.split(" "))
    head = bytes([KINDS.index(words[0]), side, 0, 0])
    return head + word(number) + pair(rooms) + pair(map(len, given)) + word(said) + pair(map(len, results)) + b"".join(given + results)


def ending(line, length):
    """How many bytes are summed, their sum, and the bytes where the sample has them."""
    words = line.split(" ")
    if words[0] == "ledger-sum":
        return int(words[1]), (int(words[2]), int(words[3])), b""
    used = unhex(words[1])[:length]
    return len(used), total(used), used


def one_list(number, lines):
    """The bytes of one list, and its calls and answers, counted."""
    length = int(lines[1].split(" ")[1])
    body = lines[2:-1]
    calls = [call(a, b) for a, b in zip(body[::2], body[1::2], strict=True)]
    used, sums, given = ending(lines[-1], length)
    head = word(number) + word(length) + word(len(calls)) + word(used) + two(*sums)
    counts = collections.Counter(line.split(" ")[0] for line in body[::2])
    counts.update(" ".join(line.split(" ")[:2]) if line.startswith("refused") else "yes" for line in body[1::2])
    return head + b"".join(calls) + word(len(given)) + given, counts


def report(lists, counts):
    """What the program prints."""
    calls = ", ".join(f"{name} {counts[name]}" for name in KINDS)
    refused = ", ".join(f"{n}: {counts[f'refused {n}']}" for n in range(1, 10))
    total_calls = sum(counts[name] for name in KINDS)
    ends = f"{lists} lists, {total_calls} calls, differences: 0"
    return f"calls: {calls}\nanswers: a step {counts['yes']}, refused {refused}\n{ends}\n"


def split(text):
    """The lines of each list."""
    lists = []
    for line in text.splitlines():
        if line.startswith("#") or not line:
            continue
        if line.startswith("list "):
            lists.append([])
        lists[-1].append(line)
    return lists


def main():
    given = [pathlib.Path(word) for word in sys.argv[1:]]
    crate = ROOT / "crates/replay"
    samples = given[2:] or [ROOT / "tools/oracle/sample/lists.txt", ROOT / "tools/replay/deep.txt"]
    stdin, stdout = given[:2] or [crate / "stdin", crate / "stdout"]
    lists = [lines for path in samples for lines in split(path.read_text())]
    parts = [one_list(number, lines) for number, lines in enumerate(lists, 1)]
    data = b"".join(p[0] for p in parts)
    stdin.write_bytes(data)
    stdout.write_text(report(len(parts), sum((p[1] for p in parts), collections.Counter())))
    print(f"{len(parts)} lists, {len(data)} bytes")


if __name__ == "__main__":
    main()

#!/usr/bin/env python3
"""Writes crates/desk_examples/stdin: ledgers of the Rust, each with damages (one byte changed), by a fixed seed.

For each ledger: its length, its bytes, the number of its damages, and for each damage three bytes of place and the new byte.
The other numbers have four bytes, all of them the lowest first. The ledgers are those of tools/oracle/sample/small.txt, every
fourth of lists.txt, and one that joins many of lists.txt, where a reference goes to some earlier step with the judgement that is
needed, near or far."""
import pathlib
import re

ROOT = pathlib.Path(__file__).resolve().parents[2]
SEED = 20251115
LONGEST = 65536


class Random:
    """splitmix64"""

    def __init__(self, seed):
        self.state = seed

    def below(self, n):
        mask = 2**64 - 1
        self.state = (self.state + 0x9E3779B97F4A7C15) & mask
        z = self.state
        z = ((z ^ (z >> 30)) * 0xBF58476D1CE4E5B9) & mask
        z = ((z ^ (z >> 27)) * 0x94D049BB133111EB) & mask
        return (z ^ (z >> 31)) % n

    def pick(self, items):
        return items[self.below(len(items))]


def table():
    """Reference count and predicate of the kinds from 1 on."""
    text = (ROOT / "crates/calculus/specs/Table.antt").read_text()
    return [None] + [(int(n), p) for n, p in re.findall(r'entry "[^"]*" (\d) (\w+)', text)]


TABLE = table()


def ledgers(name):
    lines = (ROOT / "tools/oracle/sample" / name).read_text().splitlines()
    return [bytes.fromhex(line.split()[1]) for line in lines if line.startswith("ledger-is ")]


def little(n):
    return n.to_bytes(4, "little")


def number(s, at, width=4):
    return int.from_bytes(s[at : at + width], "little")


def records(ledger):
    """The place behind the length of each record, and its end."""
    at, end = 4, 4 + number(ledger, 0)
    while at < end:
        length = number(ledger, at)
        yield at + 4, at + 4 + length
        at += 4 + length


def joined(many, random):
    out, known, count = bytearray(4), {}, 0
    for ledger in many:
        judgements = []
        for at, end in records(ledger):
            kind = number(ledger, at, 2)
            references, predicate = TABLE[kind]
            operands = at + 2 + 4 * references
            body = ledger[at : at + 2]
            for r in range(at + 2, operands, 4):
                body += little(random.pick(known[judgements[number(ledger, r)]]))
            body += ledger[operands:end]
            if len(out) + 4 + len(body) > LONGEST:
                out[:4] = little(len(out) - 4)
                return bytes(out)
            out += little(len(body)) + body
            judgements.append((predicate, ledger[operands:end]))
            known.setdefault(judgements[-1], []).append(count)
            count += 1


def some(ledger, steps, random):
    """A step of some kind that the ledger has, so that rare kinds are not missed."""
    wanted = random.pick(sorted({number(ledger, at, 2) for at, _ in steps}))
    return random.pick([i for i, (at, _) in enumerate(steps) if number(ledger, at, 2) == wanted])


def reference(ledger, steps, random):
    """One byte of a reference, mostly so that it stays below the own number."""
    i = some(ledger, steps, random)
    at = steps[i][0]
    count = TABLE[number(ledger, at, 2)][0]
    if count == 0:
        return operand(ledger, steps, random)
    place = at + 2 + 4 * random.below(count)
    if random.below(8) == 0:
        return place + random.below(4), random.below(256)
    wide = random.below(2) if i > 256 else 0
    return place + wide, random.below(min(256, (i >> 8 * wide) + 1))


def kind(ledger, steps, random):
    """A kind, mostly one with the same reference count and predicate."""
    at = steps[some(ledger, steps, random)][0]
    old = number(ledger, at, 2)
    alike = [k for k in range(1, 76) if k != old and TABLE[k] == TABLE[old]]
    choice = random.below(8)
    if choice == 0:
        return at + 1, random.below(256)
    if choice < 3 or not alike:
        return at, random.below(80)
    return at, random.pick(alike)


def operand(ledger, steps, random):
    at, end = steps[some(ledger, steps, random)]
    place = at + 2 + 4 * TABLE[number(ledger, at, 2)][0]
    place += random.below(end - place)
    old = ledger[place]
    choice = random.below(4)
    if choice == 0:
        return place, random.below(256)
    if choice == 1:
        return place, (old & 16) + random.below(6)
    return place, (old + random.pick([1, 255])) % 256


def length(ledger, steps, random):
    """One byte of a record's length."""
    place = random.pick(steps)[0] - 4
    if random.below(4) == 0:
        return place + random.below(4), random.below(256)
    return place, (ledger[place] + random.pick([1, 255, 4, 252])) % 256


def whole(ledger, steps, random):
    """One byte of L, or one behind the records."""
    if random.below(2) == 0 and 4 + number(ledger, 0) < len(ledger):
        place = 4 + number(ledger, 0)
        return place + random.below(len(ledger) - place), random.below(256)
    return random.below(4), random.below(256)


CHOICES = [reference] * 6 + [operand] * 6 + [kind] * 3 + [length] + [whole]


def damages(ledger, count, random):
    steps = list(records(ledger))
    while count > 0:
        place, byte = (random.pick(CHOICES) if steps else whole)(ledger, steps, random)
        if ledger[place] != byte:
            yield place.to_bytes(3, "little") + bytes([byte])
            count -= 1


def main():
    random = Random(SEED)
    small, lists = ledgers("small.txt"), ledgers("lists.txt")
    cases = [(l, 64) for l in small] + [(l, 48) for l in lists[::4]] + [(joined(lists[1:], random), 512)]
    out = b""
    for ledger, count in cases:
        ledger += bytes(min(random.below(9), LONGEST - len(ledger)))
        out += little(len(ledger)) + ledger + little(count) + b"".join(damages(ledger, count, random))
    (ROOT / "crates/desk_examples/stdin").write_bytes(out)
    print(f"{len(cases)} ledgers, {sum(count for _, count in cases)} damages, {len(out)} bytes")


if __name__ == "__main__":
    main()

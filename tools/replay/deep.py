#!/usr/bin/env python3
"""Writes lists of one call on formulas of 511 nodes. They are for what tools/oracle/sample/lists.txt does not have at that size:
chains of neg, endpoint, the deepest searches, and left-deep and right-deep formulas where its ledgers are full.

usage: deep.py > QUESTIONS; bash tools/oracle/run.sh answer QUESTIONS > tools/replay/deep.txt

The answers written here only hold the place: the Rust gives them."""
from functools import reduce

AT0, AT1, AND, OR, DIM, NEG, MEET = 2, 3, 4, 5, 18, 19, 20
LONGEST = 1_048_576
ROOM = 1024


def leaves(kind, dims):
    return [bytes([kind, i % dims]) for i in range(256)]


def left(kind, parts):
    return reduce(lambda a, b: bytes([kind]) + a + b, parts)


def right(kind, parts):
    return reduce(lambda a, b: bytes([kind]) + b + a, parts[::-1])


def balanced(kind, parts):
    if len(parts) == 1:
        return parts[0]
    half = len(parts) // 2
    return bytes([kind]) + balanced(kind, parts[:half]) + balanced(kind, parts[half:])


def negations():
    return bytes([NEG] * 510 + [DIM, 253])


SHAPES = [left, right, balanced]


def of_interval(r, same, other):
    """Every call on an interval; `same` is the face where it is one. Dimension 200 does not occur, so that its substitute may be long."""
    x, long = r.hex(), negations().hex()
    yield f"interval 255 {x}"
    yield f"boundary {ROOM} {ROOM} {x}"
    yield f"interval-shift 2 {ROOM} {x}"
    yield f"interval-substitute 2 {ROOM} {x} 1209"
    yield f"interval-substitute 200 {ROOM} {x} {long}"
    yield f"endpoint 255 1 {same.hex()} {x}"
    yield f"endpoint 255 0 {other.hex()} {x}"


def of_face(f):
    """Every call on a face; the substitutions put a chain of neg for a dimension that occurs."""
    x, long = f.hex(), negations().hex()
    yield f"face 255 {x}"
    yield f"forall 2 {ROOM} {x}"
    yield f"face-shift 2 {ROOM} {x}"
    yield f"face-substitute 2 {ROOM} {x} {long}"
    yield f"entails 255 {x} {x}"


def searches():
    """entails through a long conjunction: the same turned round, and a goal that fails at every literal."""
    for one in (left, right):
        given = one(AND, leaves(AT0, 5))
        for other in (left, right):
            yield f"entails 255 {given.hex()} {other(AND, leaves(AT0, 5)[::-1]).hex()}"
            yield f"entails 255 {given.hex()} {other(OR, [bytes([AT0, 9])] * 256).hex()}"


def calls():
    for shape in SHAPES:
        yield from of_face(shape(OR, leaves(AT1, 5)))
        faces = [shape(AND, leaves(AT1, 5)), shape(AND, leaves(AT1, 5)[::-1])]
        yield from of_interval(shape(MEET, leaves(DIM, 5)), *faces)
    yield from of_interval(negations(), bytes([AT1, 253]), bytes([AT1, 253]))
    yield from searches()


def main():
    for i, call in enumerate(calls(), 1):
        print(f"list {i}\nledger {LONGEST}\n{call}\nrefused 1\nledger-is 00000000")


if __name__ == "__main__":
    main()

#!/usr/bin/env python3
"""Writes crates/examples/stdin, cases of functions on formulas and ledgers, and crates/examples/stdout, what they answer.

A case: seven numbers of four bytes, the lowest first (what is asked, the sort, a number, how many bytes are lent, the lengths of
label and operands), then the label and the operands. What is printed of formulas comes from the model below, which follows
document 01 on trees and shares nothing with the crates; what is printed of ledgers is written out with each case."""
import pathlib

ROOT = pathlib.Path(__file__).resolve().parents[2]
MEASURE, FORALL, BOUNDARY, SHIFT, SUBST, PART, STEPS, LEDGER, NAME, PUT, SAME = range(1, 12)
LARGEST_LEDGER = 1048576

# The model: a formula is its kind byte and what follows, a dimension or formulas.
PARTS = {0: 0, 1: 0, 4: 2, 5: 2, 16: 0, 17: 0, 19: 1, 20: 2, 21: 2}
LITERALS = {2, 3, 18}
SORTS = (range(0, 6), range(16, 22))


def read(sort, s, at=0):
    """The formula at a place and the place behind it, or None. No recursion: formulas may be 511 deep."""
    stack, end = [], at
    while True:
        if end >= len(s) or s[end] not in SORTS[sort]:
            return None
        kind, end = s[end], end + 1
        if kind in LITERALS:
            if end >= len(s):
                return None
            stack.append([kind, 0, [s[end]]])
            end += 1
        else:
            stack.append([kind, PARTS[kind], []])
        while stack[-1][1] == len(stack[-1][2]) or stack[-1][0] in LITERALS:
            kind, _, parts = stack.pop()
            tree = (kind, *parts)
            if not stack:
                return tree, end
            stack[-1][2].append(tree)
            if len(stack[-1][2]) < stack[-1][1]:
                break


def encode(t):
    out, todo = [], [t]
    while todo:
        t = todo.pop()
        out.append(t[0])
        if t[0] in LITERALS:
            out.append(t[1])
        else:
            todo.extend(reversed(t[1:]))
    return out


def size(t):
    """Length, node count and bound."""
    length = nodes = bound = 0
    todo = [t]
    while todo:
        t = todo.pop()
        nodes += 1
        length += 2 if t[0] in LITERALS else 1
        if t[0] in LITERALS:
            bound = max(bound, t[1] + 1)
        else:
            todo.extend(t[1:])
    return length, nodes, bound


def kept(t):
    _, nodes, bound = size(t)
    return nodes <= 511 and bound <= 255


def whole(sort, s):
    got = read(sort, s)
    return got[0] if got and got[1] == len(s) else None


def boundary(end, r):
    if r[0] in (16, 17):
        return (1,) if r[0] == 16 + end else (0,)
    if r[0] == 18:
        return (2 + end, r[1])
    if r[0] == 19:
        return boundary(1 - end, r[1])
    joined = (5, 4) if r[0] == 20 else (4, 5)
    return (joined[end], boundary(end, r[1]), boundary(end, r[2]))


def moved(t, literal):
    if t[0] in LITERALS:
        return literal(t)
    return (t[0], *(moved(part, literal) for part in t[1:]))


def forall(k, f):
    return moved(f, lambda t: (0,) if t[1] == k else (t[0], t[1] - (t[1] > k)))


def shift(k, t):
    return moved(t, lambda u: (u[0], u[1] + (u[1] >= k)))


def subst(k, r, t):
    def literal(u):
        if u[1] != k:
            return (u[0], u[1] - (u[1] > k))
        return r if u[0] == 18 else boundary(u[0] - 2, r)

    return moved(t, literal)


# What is printed.
def numbers(b):
    return ":" + "".join(f" {x}" for x in b)


def measured(word, t):
    return f"{word} bytes %d nodes %d bound %d" % size(t)


def refusal(operands, make):
    """The first question that is answered no, each asked of all operands before the next; or what is made."""
    if any(t is None for t in operands):
        return 2, None
    if any(size(t)[1] > 511 for t in operands):
        return 3, None
    if any(size(t)[2] > 255 for t in operands):
        return 4, None
    made = make()
    return (None, made) if all(map(kept, made)) else (5, None)


def result(operands, make, rooms):
    """The size alone, then the answer with each lent slice."""
    number, made = refusal(operands, make)
    if number:
        return f" refused {number}" + "\n".join(f"; refused {number}" + numbers([255] * n) for n in rooms)
    text = measured(" fits", made[0])
    done = all(size(t)[0] <= n for t, n in zip(made, rooms))
    lines = []
    for t, n in zip(made, rooms):
        left = encode(t) if done else []
        lines.append((measured("; done", t) if done else "; refused 6") + numbers(left + [255] * (n - len(left))))
    return text + "\n".join(lines)


def steps(sort, s, at, times):
    pending, lines = 1, []
    for _ in range(times):
        kind = s[at] if pending and at + pending <= len(s) and s[at] in SORTS[sort] else None
        if kind is None or (kind in LITERALS and at + 1 >= len(s)):
            lines.append(" stuck")
        elif kind in LITERALS:
            lines.append(f" literal {s[at + 1]}")
            at, pending = at + 2, pending - 1
        else:
            lines.append((" leaf", " one", " two")[PARTS[kind]])
            at, pending = at + 1, pending - 1 + PARTS[kind]
        lines[-1] += f" to {at} with {pending} pending"
    return "\n".join(lines)


cases, printed = bytearray(), []


def case(what, label, answer, a=(), b=(), sort=0, number=0, room=0):
    text = label.encode()
    for n in (what, sort, number, room, len(text), len(a), len(b)):
        cases.extend(n.to_bytes(4, "little"))
    cases.extend(text + bytes(a) + bytes(b))
    printed.append(label + answer + "\n")


def measure_case(label, s, sort):
    t = whole(sort, s)
    case(MEASURE, label, measured(" formula", t) if t else " ill", s, sort=sort)


def forall_case(label, k, s, room=12):
    f = whole(0, s)
    case(FORALL, label, result([f], lambda: [forall(k, f)], [room]), s, number=k, room=room)


def boundary_case(label, s, zero=12, one=12):
    r = whole(1, s)
    case(BOUNDARY, label, result([r], lambda: [boundary(0, r), boundary(1, r)], [zero, one]), s, room=zero, number=one)


def shift_case(label, sort, k, s, beside=(), room=12):
    t = whole(sort, s)
    case(SHIFT, label, result([t], lambda: [shift(k, t)], [room]), s, beside, sort, k, room)


def subst_case(label, sort, k, s, by, room=12):
    t, r = whole(sort, s), whole(1, by)
    case(SUBST, label, result([t, r], lambda: [subst(k, r, t)], [room]), s, by, sort, k, room)


def part_case(label, sort, s, at):
    got = read(sort, s, at)
    case(PART, label, numbers(s[at : got[1]] if got else []), s, sort=sort, number=at)


def steps_case(label, sort, s, at, times):
    case(STEPS, label, steps(sort, s, at, times), s, sort=sort, number=at, room=times)


def ledger_case(label, front, steps, *operands, length=None, back=()):
    """Steps: how many, or None; operands of steps 0, 1 and 2 where there are any."""
    told = " no ledger" if steps is None else f" steps {steps}"
    shown = [*operands, *[()] * (3 - len(operands)), ()]
    room = len(front) if length is None else length
    case(LEDGER, label, told + "".join(map(numbers, shown)), front, back, number=room - len(back), room=room)


def put_case(label, s, at, room):
    fits = at + len(s) <= room
    left = [255] * room
    if fits:
        left[at : at + len(s)] = s
    case(PUT, label, ("" if fits else " no room") + numbers(left), s, number=at, room=room)


def formulas():
    face, meet, join = [5, 2, 0, 4, 3, 1, 2, 2], [20, 18, 0, 19, 18, 0], [21, 18, 3, 16]
    deep = [20] * 255 + [18, 0] * 256
    for k in (0, 1, 7):
        forall_case(f"forall {k} of 0 for (1' fand 2):", k, face)
    for room in (6, 7, 9):
        forall_case(f"forall 1 of the same into {room} bytes:", 1, face, room)
    forall_case("forall 0 of i0:", 0, [16])
    forall_case("forall 0 of 255:", 0, [2, 255])
    forall_case("forall 0 of 513 nodes:", 0, [4] * 256 + [1] * 257)
    boundary_case("boundary of meet (dim 0) (neg (dim 0)):", meet)
    for zero, one in ((4, 7), (7, 4), (7, 5), (5, 5)):
        boundary_case(f"boundary of the same into {zero} and {one} bytes:", meet, zero, one)
    for times in (509, 510, 511):
        boundary_case(f"boundary of {times} times neg of dim 0:", [19] * times + [18, 0])
    boundary_case("boundary of ft:", [1])
    boundary_case("boundary of dim 255:", [18, 255])
    for k, s in ((1, [2, 1]), (1, [2, 0]), (0, [2, 254]), (255, [2, 254])):
        shift_case(f"shift at {k} of {s[1]}:", 0, k, s)
        shift_case(f"shift at {k} of dim {s[1]}:", 1, k, [18, s[1]])
    shift_case("shift at 1 with bytes beside it that are no formula:", 1, 1, [19, 18, 1], [7, 7])
    shift_case("shift at 0 of a literal cut short:", 0, 0, [2])
    subst_case("substitute join (dim 3) i0 for 0 in 0':", 0, 0, [3, 0], join)
    subst_case("substitute the same for 1 in 0 fand (1 for 2'):", 0, 1, [4, 2, 0, 5, 2, 1, 3, 2], join)
    subst_case("substitute the same for 1 in meet (neg (dim 1)) (join (dim 0) (dim 2)):", 1, 1, [20, 19, 18, 1, 21, 18, 0, 18, 2], join)
    for room in (3, 4, 6):
        subst_case(f"substitute the same for 0 in 0' into {room} bytes:", 0, 0, [3, 0], join, room)
    subst_case("substitute 511 nodes for 0 in itself:", 1, 0, deep, deep)
    subst_case("substitute 511 nodes for 0 in 0 fand 0:", 0, 0, [4, 2, 0, 2, 0], deep)
    subst_case("substitute 0 for 0 in 0:", 0, 0, [2, 0], [2, 0])
    subst_case("substitute dim 255 for 0 in no bytes:", 0, 0, [], [18, 255])
    subst_case("substitute no bytes for 0 in dim 255:", 1, 0, [18, 255], [])
    subst_case("substitute dim 255 for 0 in 1:", 0, 0, [2, 1], [18, 255])
    subst_case("substitute dim 255 for 0 in 512 nodes:", 1, 0, [19] * 511 + [16], [18, 255])
    subst_case("substitute 512 nodes for 0 in dim 255:", 1, 0, [18, 255], [19] * 511 + [16])
    subst_case("substitute no bytes for 0 in 513 nodes:", 0, 0, [4] * 256 + [0] * 257, [])
    measured_both = {
        "0 for (1' fand 2)": face,
        "meet (dim 0) (neg (dim 0))": meet,
        "no bytes": [],
        "a literal cut short": [2],
        "a dim cut short": [18],
        "a part missing": [4, 1],
        "a byte behind ft": [1, 0],
        "a byte behind i0": [16, 17],
        "6, no kind": [6],
        "15, no kind": [15],
        "22, no kind": [22],
        "an ft in a meet": [20, 16, 1],
        "511 nodes, left-deep": [4] * 255 + [2, 254] * 256,
        "511 nodes, right-deep": [4, 2, 0] * 255 + [3, 255],
        "512 nodes": [19] + deep,
        "510 times neg": [19] * 510 + [18, 9],
    }
    for label, s in measured_both.items():
        measure_case(label + ", as a face:", s, 0)
        measure_case(label + ", as an interval:", s, 1)


def places():
    steps_case("steps over 0 for (1' fand 2):\n", 0, [5, 2, 0, 4, 3, 1, 2, 2], 0, 6)
    steps_case("steps over meet i1 (neg (dim 9)) behind a byte:\n", 1, [7, 20, 17, 19, 18, 9], 1, 5)
    steps_case("a step over a literal cut short:\n", 0, [2], 0, 1)
    steps_case("steps over a fand with a part missing:\n", 0, [4, 1], 0, 3)
    steps_case("a step over the other sort's byte:\n", 0, [16], 0, 1)
    steps_case("a step past the end:\n", 0, [1], 2, 1)
    for at in (0, 4, 1, 6, 7):
        part_case(f"the face at {at} of 4 2 0 1 3 1", 0, [4, 2, 0, 1, 3, 1], at)
    for at in (0, 1, 4):
        part_case(f"the interval at {at} of 2 19 18 4 17", 1, [2, 19, 18, 4, 17], at)
    for a, b in (([2, 0], [2, 0]), ([2, 0], [3, 0]), ([2, 0], [2, 1]), ([1], [1, 1]), ([], [])):
        case(SAME, f"{a} and {b} are the same:", " yes" if a == b else " no", a, b)
    for at in (0, 2, 3, 5):
        put_case(f"put 2 0 into 4 bytes at {at}", [2, 0], at, 4)
    for at in (4, 5):
        put_case(f"put no bytes into 4 bytes at {at}", [], at, 4)


def names():
    for kind, name in ((0, ""), (1, "lt.z"), (26, "cover.or-left"), (28, "cover.or-right0"), (30, "entails.checked"), (75, "fsubst.or"), (76, "")):
        case(NAME, f"kind {kind}: ", name + " yes", name.encode(), number=kind)
    case(NAME, "kind 28 is not cover.or-right1: ", "cover.or-right0 no", b"cover.or-right1", number=28)
    case(NAME, "kind 30 is not entails.check: ", "entails.checked no", b"entails.check", number=30)


def ledgers():
    two = [20, 0, 0, 0, 4, 0, 0, 0, 1, 0, 0, 1, 8, 0, 0, 0, 2, 0, 0, 0, 0, 0, 1, 2, 0, 0, 0]
    both = ([0, 1], [1, 2])
    for n in range(6):
        ledger_case(f"{n} zeros:", [0] * n, None if n < 4 else 0)
    ledger_case("length 1 in 4 bytes:", [1, 0, 0, 0], None)
    ledger_case("length 1 in 5 bytes:", [1, 0, 0, 0, 0], None)
    ledger_case("the largest length:", [255, 255, 255, 255, 0], None)
    for n in range(20, 28):
        if n < 24:
            ledger_case(f"two steps cut at {n}:", two[:n], None)
        else:
            ledger_case(f"two steps cut at {n}:", two[:n], 2, *both)

    def altered(label, at, byte, *told):
        changed = two[:at] + [byte] + two[at + 1 :]
        ledger_case("  " + label, changed, *(told or (None,)))

    altered("a nonzero byte behind the records:", 24, 1)
    altered("a nonzero byte at the end:", 26, 1)
    for by, low in (("one less", 19), ("one more", 21), ("four less", 16), ("that of one record", 8)):
        altered(f"the length {by}:", 0, low)
    for length in (3, 5, 8):
        altered(f"record 0 of length {length}:", 4, length)
    for length in (4, 7, 9, 12):
        altered(f"record 1 of length {length}:", 12, length)
    altered("step 0 of kind 0:", 8, 0)
    altered("step 0 of kind 3:", 8, 3, 2, *both)
    altered("step 0 of kind 2, which has a reference:", 8, 2)
    altered("step 0 of kind 76:", 8, 76)
    altered("step 0 of kind 257:", 9, 1)
    altered("step 1 of kind 4:", 16, 4, 2, *both)
    altered("step 1 of kind 75:", 16, 75)
    altered("step 1 refers to itself:", 18, 1)
    altered("step 1 refers to 256:", 19, 1)
    altered("step 1 with 255 as its first number:", 22, 255, 2, [0, 1], [255, 2])
    first = [4, 0, 0, 0, 1, 0, 0, 1]

    def behind(label, body, *told):
        length = len(first) + 4 + len(body)
        ledger_case(label, [length, 0, 0, 0, *first, len(body), 0, 0, 0, *body], *told)

    twice, thrice = [0] * 8, [0] * 12
    behind("fsubst.or on two steps:", [75, 0, *twice, 5, 0, 0, 0, 16, 5, 0, 0], 2, [0, 1], [5, 0, 0, 0, 16, 5, 0, 0])
    behind("kind 76 in its place:", [76, 0, *twice, 5, 0, 0, 0, 16, 5, 0, 0], None)
    behind("local with the end i0:", [37, 0, *thrice, 0, 1, 16, 16], 2, [0, 1], [0, 1, 16, 16])
    behind("local with the end i1:", [37, 0, *thrice, 0, 1, 16, 17], 2, [0, 1], [0, 1, 16, 17])
    behind("local with the end dim 0:", [37, 0, *thrice, 0, 1, 16, 18, 0], None)
    behind("local with the end neg i0:", [37, 0, *thrice, 0, 1, 16, 19, 16], None)

    def alone(label, body, *told, **more):
        n = len(body)
        ledger_case(label, [*(n + 4).to_bytes(4, "little"), *n.to_bytes(4, "little"), *body], *told, **more)

    alone("fforall.ff at 254:", [39, 0, 0, 254, 0], 1, [0, 254, 0])
    alone("fforall.ff at 255:", [39, 0, 0, 255, 0], None)
    alone("fforall.0.hit of dimension 254:", [41, 0, 2, 254, 0, 0], 1, [2, 254, 0, 0])
    alone("fforall.0.hit of dimension 255:", [41, 0, 2, 255, 0, 0], None)
    alone("face.ft over 255 dimensions:", [12, 0, 255, 1], 1, [255, 1])
    alone("face.ft with an interval:", [12, 0, 255, 17], None)
    alone("a context of 511 faces:", [21, 0, 255, 1, *[1] * 512], 1, [255, 1, *[1] * 512])
    alone("a context of 512 faces:", [21, 0, 0, 2, *[1] * 513], None)
    alone("a context of 511 faces that counts 510:", [21, 0, 254, 1, *[1] * 512], None)
    alone("a context of one face of 511 nodes:", [21, 0, 1, 0, *[4] * 255, *[1] * 257], 1, [1, 0, *[4] * 255, *[1] * 257])
    alone("a context of that and ft:", [21, 0, 2, 0, *[4] * 255, *[1] * 258], None)
    lt = [1, 0, 0, 1]
    for n in (LARGEST_LEDGER - 1, LARGEST_LEDGER, LARGEST_LEDGER + 1):
        ok = n <= LARGEST_LEDGER
        ledger_case(f"{n} zeros:", [], 0 if ok else None, length=n)
        alone(f"{n} bytes with a step:", lt, *((1, [0, 1]) if ok else (None,)), length=n)
        alone(f"{n} bytes with a step and a last byte of 1:", lt, None, length=n, back=[1])


formulas()
places()
names()
ledgers()
out = ROOT / "crates/examples"
(out / "stdin").write_bytes(cases)
(out / "stdout").write_text("".join(printed))
print(len(printed), "cases,", len(cases), "bytes")

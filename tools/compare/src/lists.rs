//! The lists that are compared: fixed ones at the limits, and random ones by
//! their seed, made from the judge's with more that the door refuses, outputs
//! of every length, damaged ledgers, and ledgers of exactly the bytes needed.
use crate::expected::{self, Damage, Item, List};
use crate::{foreign, stopped};
use judge::bench::conjunction;
use judge::call::{Call, Name};
use judge::cost;
use judge::door;
use judge::fixed::{self, and, dim, ft, limit, or, zero};
use judge::formula::*;
use judge::ledger::LONGEST;
use judge::lists::{self, Style};
use judge::operations;
use judge::random::{Random, SHAPES, Shape};

/// Searches of more covers are left out.
const MOST_COVERS: u64 = 400;

pub const SMALL: Style = Style {
    most_nodes: 15,
    most_calls: 40,
    most_covers: MOST_COVERS,
    most_dims: 4,
    lengths: &[700, 2_048, 4_096, 4_096, 16_384, 16_384, 65_536],
    broken: 6,
};

const LARGE: Style = Style {
    most_nodes: 511,
    most_calls: 20,
    most_covers: MOST_COVERS,
    most_dims: 255,
    lengths: &[LONGEST, 300_000, 65_536, 65_536, 65_536],
    broken: 3,
};

/// In how many of a hundred lists the formulas are large.
const LARGE_SHARE: usize = 3;

pub fn list_of(length: usize, calls: Vec<Call>) -> List {
    let items = calls.into_iter().map(|call| Item { call, damage: None }).collect();
    List { length, start: vec![], items }
}

/// The lists by a seed: from an empty ledger, such as 7 refuses in the middle, and from a ledger that no call made.
pub fn made(seed: u64) -> Vec<List> {
    let mut all = from_empty(seed);
    if seed.is_multiple_of(4) {
        all.extend(stopped::made(seed));
    }
    if seed.is_multiple_of(2) {
        all.push(foreign::made(seed));
    }
    all
}

/// Mostly one, several for a ledger's exact length.
fn from_empty(seed: u64) -> Vec<List> {
    let mut random = Random::new(!seed);
    let large = random.chance(LARGE_SHARE);
    let (length, calls) = lists::list(seed, if large { LARGE } else { SMALL });
    let mut list = list_of(length, calls.into_iter().map(|c| varied(c, &mut random)).collect());
    match random.below(100) {
        0..25 => return tight(list, &mut random),
        25..28 => return vec![misfit(list, &mut random)],
        28..30 => list.length = LONGEST,
        _ => {}
    }
    if random.chance(40) {
        add_damages(&mut list, &mut random);
    }
    vec![list]
}

/// A call whose search ends soon, if it has one.
pub fn is_short(call: &Call) -> bool {
    let roomy = Call { rooms: vec![usize::MAX; call.rooms.len()], ..call.clone() };
    let Ok(seen) = door::admit(&roomy) else { return true };
    let ends = |a: &Tree, b: &Tree| cost::search(a, b, MOST_COVERS).0.is_some();
    let t = &seen.operands;
    match call.name {
        Name::Entails => ends(&t[0], &t[1]),
        Name::Endpoint => {
            let (zero, one) = operations::boundary(&t[1]);
            ends(&t[0], if call.one { &one } else { &zero })
        }
        _ => true,
    }
}

/// The call, sometimes with other bytes, numbers or output lengths.
fn varied(call: Call, random: &mut Random) -> Call {
    let mut other = call.clone();
    if random.chance(3) {
        spoil(&mut other, random);
    }
    if random.chance(2) {
        let numbers = [255, 256, 257, 65_535, 65_537, 1 << 32, (1 << 32) + 1, usize::MAX];
        other.number = *random.pick(&numbers);
    }
    if random.chance(3) {
        swell(&mut other, random);
    }
    if !is_short(&other) {
        other = call;
    }
    if random.chance(50) {
        fit_outputs(&mut other, random);
    }
    other
}

fn spoil(call: &mut Call, random: &mut Random) {
    let i = random.below(call.operands.len());
    spoil_operand(&mut call.operands[i], random);
}

/// Another byte somewhere in an operand, a byte more or less, or random ones.
pub fn spoil_operand(operand: &mut Vec<u8>, random: &mut Random) {
    let place = random.below(operand.len() + 1);
    let kinds = [FF, FT, AT0, AT1, AND, OR, I0, I1, DIM, NEG, MEET, JOIN, 6, 15, 22, 255];
    let byte = *random.pick(&kinds);
    match random.below(5) {
        0 | 1 if place < operand.len() => operand[place] = byte,
        2 => operand.insert(place, byte),
        3 if place < operand.len() => drop(operand.remove(place)),
        _ => *operand = (0..random.below(24)).map(|_| *random.pick(&kinds)).collect(),
    }
}

/// A shift or substitution whose result is too large, or just not.
fn swell(call: &mut Call, random: &mut Random) {
    let face = call.name.signature().sorts[0] == Sort::Face;
    let (both, top) = if face { (AND, AT0) } else { (MEET, DIM) };
    match call.name {
        Name::FaceShift | Name::IntervalShift => {
            let last = 253 + random.below(2) as u8;
            call.operands[0] = [vec![both, top, last], call.operands[0].clone()].concat();
        }
        Name::FaceSubstitute | Name::IntervalSubstitute => {
            let leaves = random.between(250, 256);
            call.operands[1] = limit(Sort::Interval, *random.pick(&SHAPES), leaves, 4).bytes();
        }
        _ => {}
    }
}

/// Output slices of exactly the result's length, shorter, or longer.
fn fit_outputs(call: &mut Call, random: &mut Random) {
    let roomy = Call { rooms: vec![usize::MAX; call.rooms.len()], ..call.clone() };
    let Ok(seen) = door::admit(&roomy) else { return };
    for (room, result) in call.rooms.iter_mut().zip(&seen.results) {
        let length = result.bytes().len();
        *room = match random.below(12) {
            0..6 => length,
            6..8 => length - 1,
            8 => random.below(length),
            9 => 0,
            _ => length + random.below(40),
        };
    }
}

/// Calls on the ledger with one byte changed, anywhere in the list.
fn add_damages(list: &mut List, random: &mut Random) {
    for _ in 0..random.between(1, 6) {
        let call = random.pick(&list.items).call.clone();
        let flips = [1, 2, 3, 128, 255, random.between(1, 255) as u8];
        let damage = Damage { draw: random.draw() as usize, flip: *random.pick(&flips) };
        let place = random.between(0, list.items.len());
        list.items.insert(place, Item { call, damage: Some(damage) });
    }
}

/// A ledger whose length question 1 refuses.
fn misfit(mut list: List, random: &mut Random) -> List {
    let longer = LONGEST + 1 + random.below(5_000);
    list.length = *random.pick(&[0, 1, 2, 3, 3, LONGEST + 1, longer]);
    list.items.truncate(8);
    list
}

/// A call that adds steps: its place in the list, the bytes used after it, those that it added.
#[derive(Clone, Copy)]
pub struct Grown {
    pub item: usize,
    pub used: usize,
    pub new: usize,
}

/// The calls of a list that add steps, on the longest ledger.
pub fn grown(list: &List) -> Vec<Grown> {
    let free = expected::run(&List { length: LONGEST, ..list.clone() });
    let mut before = 4 + list.start.len();
    let mut out = vec![];
    for (item, expected) in free.expected.iter().enumerate() {
        let used = expected.used;
        if used > before {
            out.push(Grown { item, used, new: used - before });
        }
        before = used;
    }
    out
}

/// The list on ledgers of exactly the bytes that it needs up to some call,
/// one byte less, and some bytes less; a few calls follow.
fn tight(list: List, random: &mut Random) -> Vec<List> {
    let grown = grown(&list);
    if grown.is_empty() {
        return vec![list];
    }
    let Grown { item, used, new } = *random.pick(&grown);
    let items = list.items[..list.items.len().min(item + 4)].to_vec();
    let lengths = [used, used - 1, used - random.between(1, new)];
    lengths.map(|length| List { length, items: items.clone(), ..list.clone() }).into()
}

/// The list on ledgers of exactly the bytes that it needs up to each of its
/// calls, and one byte less.
fn every_fit(list: List) -> Vec<List> {
    let lengths = grown(&list).into_iter().flat_map(|g| [g.used, g.used - 1]);
    lengths.map(|length| List { length, ..list.clone() }).collect()
}

/// A dimension under negations, so many nodes in all.
fn chain(nodes: usize, n: u8) -> Tree {
    (1..nodes).fold(dim(n), |t, _| not(t))
}

fn on(name: Name, number: usize, t: &Tree) -> Call {
    Call::new(name, number, &[t])
}

fn on_two(name: Name, number: usize, a: &Tree, b: &Tree) -> Call {
    Call::new(name, number, &[a, b])
}

/// A few calls to a ledger, since the longest ledger is soon full of these.
fn by_threes(calls: &[Call]) -> Vec<List> {
    calls.chunks(3).map(|some| list_of(LONGEST, some.to_vec())).collect()
}

/// Every call on formulas of 511 nodes of one shape.
pub fn largest(shape: Shape, dims: usize) -> Vec<Call> {
    let f = limit(Sort::Face, shape, 256, dims);
    let r = limit(Sort::Interval, shape, 256, dims);
    let (d, k) = (dims, dims / 2);
    let (zero_face, one_face) = operations::boundary(&r);
    vec![
        on(Name::Face, d, &f),
        on(Name::Face, d - 1, &f),
        on(Name::Interval, d, &r),
        on(Name::Interval, d - 1, &r),
        on(Name::Boundary, 0, &r),
        on(Name::Forall, k, &f),
        on(Name::FaceShift, k, &f),
        on(Name::IntervalShift, k, &r),
        on_two(Name::FaceSubstitute, k, &f, &dim(7)),
        on_two(Name::FaceSubstitute, k, &f, &r),
        on_two(Name::FaceSubstitute, 7, &zero(7), &r),
        on_two(Name::IntervalSubstitute, k, &r, &leaf(I1)),
        on_two(Name::IntervalSubstitute, 7, &dim(7), &r),
        on_two(Name::Entails, d, &f, &f),
        on_two(Name::Entails, d, &f, &ft()),
        on_two(Name::Entails, d, &ft(), &f),
        Call::endpoint(d, &zero_face, &r, false),
        Call::endpoint(d, &one_face, &r, true),
        Call::endpoint(d, &ft(), &r, true),
    ]
}

/// Those of them whose search ends soon.
fn largest_lists(shape: Shape, dims: usize) -> Vec<List> {
    by_threes(&largest(shape, dims).into_iter().filter(is_short).collect::<Vec<_>>())
}

/// Chains of negations up to the limit and above it.
pub fn chains() -> Vec<Call> {
    let (odd, even) = (chain(511, 3), chain(510, 254));
    vec![
        on(Name::Interval, 4, &odd),
        on(Name::Interval, 3, &odd),
        on(Name::Interval, 255, &even),
        on(Name::Interval, 255, &chain(512, 3)),
        on(Name::Boundary, 0, &odd),
        on(Name::Boundary, 0, &even),
        on(Name::IntervalShift, 2, &odd),
        on(Name::IntervalShift, 2, &even),
        on_two(Name::IntervalSubstitute, 3, &odd, &leaf(I0)),
        on_two(Name::IntervalSubstitute, 3, &odd, &chain(2, 0)),
        on_two(Name::IntervalSubstitute, 3, &dim(3), &odd),
        on_two(Name::IntervalSubstitute, 2, &odd, &odd),
        on_two(Name::FaceSubstitute, 2, &or(zero(2), zero(3)), &odd),
        Call::endpoint(4, &zero(3), &odd, false),
        Call::endpoint(4, &zero(3), &odd, true),
        Call::endpoint(255, &zero(254), &even, true),
    ]
}

/// Operands far longer than any formula that is let in.
fn long_operands() -> List {
    let bytes = |name: Name, operand: Vec<u8>| {
        let mut call = on(name, 3, &ft());
        call.operands = vec![operand; name.signature().sorts.len()];
        call
    };
    let mut calls = vec![];
    for n in [600, 20_000, 200_000] {
        let chain = [vec![NEG; n], vec![I0]].concat();
        let left = [vec![AND; n], vec![FF; n + 1]].concat();
        let right = [[OR, FT].repeat(n), vec![FF]].concat();
        calls.push(bytes(Name::Interval, chain.clone()));
        calls.push(bytes(Name::Boundary, chain.clone()));
        calls.push(bytes(Name::IntervalSubstitute, chain.clone()));
        calls.push(bytes(Name::Face, left.clone()));
        calls.push(bytes(Name::Entails, right));
        // One leaf less, and one more.
        calls.push(bytes(Name::Interval, vec![NEG; n]));
        calls.push(bytes(Name::Face, left[..2 * n].to_vec()));
        calls.push(bytes(Name::Forall, [left, vec![FF]].concat()));
    }
    list_of(2_048, calls)
}

/// Long conjunctions, the deepest searches that end.
fn conjunctions() -> Vec<List> {
    let to_last = |n: usize| {
        let a = conjunction(0..n);
        let turned = (0..n).map(|i| zero((i % 255) as u8)).rev().reduce(|b, a| and(a, b)).unwrap();
        let last = zero(((n - 1) % 255) as u8);
        let calls = vec![on_two(Name::Entails, 255, &a, &last), on_two(Name::Entails, 255, &turned, &last)];
        list_of(LONGEST, calls)
    };
    [2, 16, 128, 255, 256].map(to_last).into()
}

/// The lists made by hand.
pub fn fixed() -> Vec<List> {
    let mut all: Vec<_> = fixed::lists().into_iter().map(|(length, calls)| list_of(length, calls)).collect();
    let small = fixed::every_kind().into_iter().map(|(length, calls)| list_of(length, calls));
    all.extend(small.flat_map(every_fit));
    for dims in [5, 100] {
        all.extend(SHAPES.iter().flat_map(|shape| largest_lists(*shape, dims)));
    }
    all.extend(largest_lists(Shape::Scattered, 254));
    all.extend(by_threes(&chains()));
    all.push(long_operands());
    all.extend(conjunctions());
    all.extend(foreign::fixed());
    all
}

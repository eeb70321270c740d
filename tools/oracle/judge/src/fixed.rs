//! Lists made by hand: every kind in a dozen short ledgers, document 01's
//! marked examples, the door's questions, and formulas at the limits.
use crate::call::{Call, Name};
use crate::formula::*;
use crate::ledger::LONGEST;
use crate::random::{Random, SHAPES, Shape, grown};
use crate::sample::List;

/// at0 n.
pub fn zero(n: u8) -> Tree {
    at(AT0, n)
}
/// at1 n.
pub fn one(n: u8) -> Tree {
    at(AT1, n)
}
pub fn dim(n: u8) -> Tree {
    at(DIM, n)
}
pub fn and(a: Tree, b: Tree) -> Tree {
    pair(AND, a, b)
}
pub fn or(a: Tree, b: Tree) -> Tree {
    pair(OR, a, b)
}
pub fn meet(r: Tree, s: Tree) -> Tree {
    pair(MEET, r, s)
}
pub fn join(r: Tree, s: Tree) -> Tree {
    pair(JOIN, r, s)
}
pub fn ff() -> Tree {
    leaf(FF)
}
pub fn ft() -> Tree {
    leaf(FT)
}
fn i0() -> Tree {
    leaf(I0)
}
fn i1() -> Tree {
    leaf(I1)
}

fn on(name: Name, number: usize, f: Tree) -> Call {
    Call::new(name, number, &[&f])
}
fn on_two(name: Name, number: usize, a: Tree, b: Tree) -> Call {
    Call::new(name, number, &[&a, &b])
}
fn entails(d: usize, a: Tree, b: Tree) -> Call {
    on_two(Name::Entails, d, a, b)
}

/// Document 01's first marked example.
pub fn distribute() -> (Tree, Tree) {
    let goal = or(and(zero(0), zero(1)), and(zero(0), one(1)));
    (and(zero(0), or(zero(1), one(1))), goal)
}

fn every_face() -> Tree {
    or(and(zero(0), one(1)), and(or(zero(1), one(2)), and(or(one(0), zero(2)), or(ff(), ft()))))
}

fn every_interval() -> Tree {
    join(meet(i0(), not(dim(0))), join(dim(1), meet(i1(), dim(2))))
}

/// Fourteen lists; each ledger has less than 40 steps, and between them they
/// hold every kind. The basis of computed examples.
pub fn every_kind() -> Vec<List> {
    let (a, b) = distribute();
    let face = |name, k| vec![on(name, k, every_face())];
    let interval = |name, n| vec![on(name, n, every_interval())];
    let lists = vec![
        // Document 01's listing.
        vec![entails(1, zero(0), ft())],
        vec![entails(2, a, b)],
        // A clash, the zero side named first whichever stands first.
        vec![entails(1, and(zero(0), one(0)), ff()), entails(1, and(one(0), zero(0)), ff())],
        // Absurd, 8, yes, 9; the steps of the failed ones stay.
        vec![
            entails(1, and(zero(0), ff()), zero(0)),
            entails(0, ff(), zero(0)),
            entails(0, ff(), ff()),
            entails(1, ft(), or(zero(0), one(0))),
            entails(1, and(ff(), one(0)), zero(0)),
        ],
        interval(Name::Interval, 3),
        interval(Name::Boundary, 0),
        vec![
            Call::endpoint(1, &zero(0), &meet(dim(0), not(dim(0))), false),
            Call::endpoint(1, &one(0), &dim(0), true),
            Call::endpoint(1, &ft(), &dim(0), true),
        ],
        face(Name::Forall, 1),
        interval(Name::IntervalShift, 1),
        vec![on_two(Name::IntervalSubstitute, 1, every_interval(), not(dim(0)))],
        face(Name::FaceShift, 1),
        vec![on_two(Name::FaceSubstitute, 1, every_face(), join(dim(3), i0()))],
        // The steps of a failed left try stay, though nothing refers to them.
        vec![entails(2, and(zero(0), zero(1)), or(and(zero(1), one(0)), zero(0)))],
        // A ledger that fills up: 7 in the middle, then old numbers and one step more.
        vec![
            on(Name::Face, 2, or(zero(0), one(1))),
            entails(2, or(zero(0), one(1)), or(one(1), zero(0))),
            on(Name::Face, 1, or(zero(0), one(1))),
            entails(2, one(1), or(zero(0), one(1))),
            entails(2, one(1), or(zero(0), one(1))),
            on(Name::Face, 2, one(1)),
            on(Name::Face, 2, ff()),
        ],
    ];
    let last = lists.len() - 1;
    lists.into_iter().enumerate().map(|(i, calls)| (if i == last { 320 } else { 2_048 }, calls)).collect()
}

/// The marked examples of document 01 that are calls.
fn marked() -> Vec<Call> {
    let (a, b) = distribute();
    vec![
        entails(2, a, b),
        entails(1, and(zero(0), one(0)), ff()),
        entails(1, ft(), or(zero(0), one(0))),
        entails(0, ff(), zero(0)),
        entails(0, ff(), ff()),
        on(Name::Forall, 1, or(zero(0), and(one(1), zero(2)))),
        on(Name::Boundary, 0, meet(dim(0), not(dim(0)))),
        on(Name::FaceShift, 1, zero(1)),
        on(Name::FaceShift, 1, zero(0)),
        on(Name::FaceShift, 0, zero(254)),
        on_two(Name::FaceSubstitute, 0, one(0), join(dim(3), i0())),
        on(Name::Interval, 255, negations(511)),
        on(Name::Interval, 255, negations(512)),
    ]
}

/// dim 254 under negations, so many nodes in all.
pub fn negations(nodes: usize) -> Tree {
    (1..nodes).fold(dim(254), |t, _| not(t))
}

/// A face or interval of one shape with so many leaves: dimensions 1, 2, ..
/// modulo `dims`, sides and kinds by a fixed draw.
pub fn limit(sort: Sort, shape: Shape, leaves: usize, dims: usize) -> Tree {
    let kinds = if sort == Sort::Face { [AND, OR] } else { [MEET, JOIN] };
    let mut next = 0;
    grown(shape, leaves, &mut Random::new(dims as u64), &mut |r| *r.pick(&kinds), &mut |r| {
        next += 1;
        let n = (next % dims) as u8;
        if sort == Sort::Interval { dim(n) } else { at(*r.pick(&[AT0, AT1]), n) }
    })
}

fn with_bytes(name: Name, number: usize, operands: &[&[u8]]) -> Call {
    let shell = Call { operands: vec![], ..Call::new(name, number, &[]) };
    Call { operands: operands.iter().map(|b| b.to_vec()).collect(), ..shell }
}

/// Question 2 in every way, and which of two questions is asked first.
fn ill_formed() -> Vec<Call> {
    let long = limit(Sort::Face, Shape::Balanced, 257, 3).bytes();
    let face = |b: &[u8]| with_bytes(Name::Face, 1, &[b]);
    vec![
        face(&[]),
        face(&[2]),
        face(&[4, 0]),
        face(&[4, 0, 1, 1]),
        face(&[6]),
        face(&[16]),
        with_bytes(Name::Interval, 1, &[&[0]]),
        with_bytes(Name::Interval, 1, &[&[20, 16]]),
        // 2 before 3, 3 before 4, over all operands.
        with_bytes(Name::Entails, 1, &[&long, &[2]]),
        with_bytes(Name::Entails, 256, &[&[2, 255], &long]),
        with_bytes(Name::Entails, 256, &[&[0], &[0]]),
        with_bytes(Name::Entails, 1, &[&[2, 255], &[0]]),
        face(&[1]),
    ]
}

/// A substitution whose result has so many nodes.
fn swollen(nodes: usize) -> Call {
    // One leaf is hit and becomes a face of many nodes.
    let r = limit(Sort::Interval, Shape::RightDeep, (nodes - 1) / 2, 3);
    on_two(Name::FaceSubstitute, 0, and(zero(0), ft()), r)
}

fn roomy(mut call: Call, rooms: &[usize]) -> Call {
    call.rooms = rooms.to_vec();
    call
}

/// Questions 4, 5 and 6 at their limits.
fn limits() -> Vec<Call> {
    let meet = meet(dim(0), dim(1));
    vec![
        on(Name::Forall, 255, ff()),
        on(Name::Forall, 254, zero(254)),
        on(Name::FaceShift, 254, zero(254)),
        on(Name::FaceShift, 254, zero(253)),
        on(Name::IntervalShift, 0, dim(253)),
        on(Name::IntervalShift, 0, dim(254)),
        swollen(511),
        swollen(513),
        roomy(on(Name::Boundary, 0, meet.clone()), &[5, 5]),
        roomy(on(Name::Boundary, 0, meet.clone()), &[4, 5]),
        roomy(on(Name::Boundary, 0, meet), &[5, 4]),
        roomy(on(Name::Forall, 0, one(3)), &[1]),
        roomy(on(Name::Forall, 0, one(3)), &[2]),
        // 5 before 6.
        roomy(on(Name::IntervalShift, 0, dim(254)), &[0]),
        roomy(on(Name::IntervalShift, 0, dim(3)), &[0]),
    ]
}

/// One list a ledger length: where exactly 7 stops.
fn filling() -> Vec<List> {
    let calls = vec![
        entails(1, zero(0), ft()),
        entails(1, ft(), zero(0)),
        entails(1, zero(0), ft()),
        entails(0, zero(0), ft()),
        on(Name::Face, 7, ff()),
    ];
    (0..24).map(|i| (i * 5, calls.clone())).chain([(LONGEST, calls.clone()), (LONGEST + 1, calls.clone())]).collect()
}

/// Every call on formulas of 511 nodes, for each shape.
fn largest() -> Vec<List> {
    let one_shape = |shape| {
        let f = limit(Sort::Face, shape, 256, 5);
        let r = limit(Sort::Interval, shape, 256, 5);
        vec![
            on(Name::Face, 5, f.clone()),
            on(Name::Interval, 5, r.clone()),
            on(Name::Boundary, 0, r.clone()),
            on(Name::Forall, 2, f.clone()),
            on(Name::FaceShift, 2, f.clone()),
            on(Name::IntervalShift, 2, r.clone()),
            on_two(Name::FaceSubstitute, 2, f.clone(), dim(7)),
            on_two(Name::IntervalSubstitute, 2, r.clone(), i1()),
            entails(5, f.clone(), f.clone()),
        ]
    };
    SHAPES.iter().map(|s| (LONGEST, one_shape(*s))).collect()
}

/// The fixed lists of the large sample.
pub fn lists() -> Vec<List> {
    let mut all = every_kind();
    all.push((65_536, marked()));
    all.push((2_048, ill_formed()));
    all.push((65_536, limits()));
    all.extend(filling());
    all.extend(largest());
    all
}

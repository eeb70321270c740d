//! Inputs on which the Rust recurses deepest, searches longest or emits most:
//! every small pair, families that grow, and climbing from random pairs.
use crate::bench::conjunction;
use crate::call::{Call, Name};
use crate::cost;
use crate::door;
use crate::exhaustive::faces;
use crate::fixed::*;
use crate::formula::*;
use crate::ledger::{self, LONGEST};
use crate::random::{Random, SHAPES, Shape, face};
use crate::session::{drive, fresh, prepare, rust_face};
use crate::text::notation;
use crate::watch::{self, Used};
use published::cubical::engine::face_frontend::FaceProducer;
use std::time::{Duration, Instant};

struct Measured {
    steps: usize,
    bytes: usize,
    used: Used,
    time: Duration,
    /// The step's number, or how long the Rust's words for the failure are.
    said: Result<usize, usize>,
}

fn measure(call: &Call) -> Measured {
    fresh(|| {
        let seen = door::admit(call).unwrap_or_else(|q| panic!("refused {q}"));
        let call = prepare(call, &seen.operands);
        let mut producer = FaceProducer::default();
        let start = Instant::now();
        let (said, used) = watch::measured(|| drive(&mut producer, &call));
        let time = start.elapsed();
        let bytes = ledger_bytes(&producer);
        let said = said.map(|(n, _)| n).map_err(|words| words.len());
        Measured { steps: producer.path.p.steps.len(), bytes, used, time, said }
    })
}

/// The ledger's length with these steps.
fn ledger_bytes(producer: &FaceProducer) -> usize {
    let mut bytes = vec![];
    producer.path.p.steps.iter().for_each(|s| ledger::write_record(s, &mut bytes));
    4 + bytes.len()
}

fn entails(d: usize, a: &Tree, b: &Tree) -> Call {
    Call::new(Name::Entails, d, &[a, b])
}

fn millis(time: Duration) -> String {
    format!("{:.1}", time.as_nanos() as f64 / 1e6)
}

fn table(title: &str, columns: &[&str]) {
    println!("\n## {title}\n\n| {} |\n|{}", columns.join(" | "), "---|".repeat(columns.len()));
}

fn row(cells: &[String]) {
    println!("| {} |", cells.join(" | "));
}

// Deep calls: 511 nodes.

fn chain(kind: u8, leaves: Vec<Tree>, right: bool) -> Tree {
    let join = |a, b| pair(kind, a, b);
    if right {
        leaves.into_iter().rev().reduce(|a, b| join(b, a)).unwrap()
    } else {
        leaves.into_iter().reduce(join).unwrap()
    }
}

fn literals(high: usize) -> Vec<Tree> {
    (0..256).map(|n| zero((n % high) as u8)).collect()
}

/// Long faces in both directions, the highest dimension at the far end.
fn deep_faces(high: usize) -> [(String, Tree); 2] {
    let words = format!("256 literals, dimensions 0 to {}, in a", high - 1);
    [
        (format!("{words} left-deep fand"), chain(AND, literals(high), false)),
        (format!("{words} right-deep fand"), chain(AND, literals(high), true)),
    ]
}

fn deep_intervals(high: u8) -> [(String, Tree); 2] {
    let dims = (0..256).map(|n| dim((n % (usize::from(high) + 1)) as u8)).collect();
    [
        (format!("510 neg over dim {high}"), (1..511).fold(dim(high), |t, _| not(t))),
        (format!("256 dims up to {high} in a right-deep meet"), chain(MEET, dims, true)),
    ]
}

/// Every call at the limits, in the shapes that nest deepest.
pub fn deep_calls() -> Vec<(String, Call)> {
    let mut out = vec![];
    for (words, f) in deep_faces(255) {
        out.push((words.clone(), Call::new(Name::Face, 255, &[&f])));
        out.push((words, Call::new(Name::Forall, 254, &[&f])));
    }
    for (words, f) in deep_faces(254) {
        out.push((words.clone(), Call::new(Name::FaceShift, 254, &[&f])));
        for (of_r, r) in deep_intervals(254) {
            out.push((format!("{words}; r {of_r}; k 254"), Call::new(Name::FaceSubstitute, 254, &[&f, &r])));
        }
    }
    for (words, r) in deep_intervals(253) {
        out.push((words, Call::new(Name::IntervalShift, 254, &[&r])));
    }
    for (words, r) in deep_intervals(254) {
        out.push((words.clone(), Call::new(Name::Interval, 255, &[&r])));
        out.push((words.clone(), Call::new(Name::Boundary, 0, &[&r])));
        out.push((format!("{words}; r dim 0; k 253"), Call::new(Name::IntervalSubstitute, 253, &[&r, &dim(0)])));
        out.push((format!("phi ft; {words}; end i1"), Call::endpoint(255, &ft(), &r, true)));
    }
    out.push(long_substitution());
    out.push(deep_endpoint());
    out.extend(deep_entailments());
    out
}

/// Every step carries t's part, r and the result's part.
fn long_substitution() -> (String, Call) {
    let (t, r) = (deep_intervals(253)[1].clone(), deep_intervals(254)[1].clone());
    (format!("{}; r {}; k 254", t.0, r.0), Call::new(Name::IntervalSubstitute, 254, &[&t.1, &r.1]))
}

/// Search after boundary: phi is a long conjunction, r a long meet.
fn deep_endpoint() -> (String, Call) {
    let ones: Vec<_> = (0..256).rev().map(|n| one((n % 254) as u8)).collect();
    let r = deep_intervals(253)[1].1.clone();
    let words = "phi 256 literals in a right-deep fand; r 256 dims turned round in a right-deep meet; end i1";
    (words.into(), Call::endpoint(255, &chain(AND, ones, true), &r, true))
}

fn deep_entailments() -> Vec<(String, Call)> {
    let mut out = vec![];
    for (words, a) in deep_faces(254) {
        for right in [false, true] {
            let side = if right { "right" } else { "left" };
            let mut turned = literals(254);
            turned.reverse();
            let same = chain(AND, turned, right);
            out.push((format!("{words}, to the same turned round, {side}-deep"), entails(255, &a, &same)));
            let never = chain(OR, vec![zero(254); 256], right);
            out.push((format!("{words}, to 256 times 254 in a {side}-deep for"), entails(255, &a, &never)));
        }
    }
    out
}

fn verdict(m: &Measured) -> String {
    match m.said {
        Ok(step) => format!("yes {step}"),
        Err(words) => format!("no ({words} bytes of message)"),
    }
}

/// For each call, the input that used most stack and the one that emitted most.
pub fn deep() {
    let columns = [
        "call",
        "input, 511 nodes an operand",
        "answer",
        "stack, bytes",
        "heap, bytes",
        "steps",
        "ledger, bytes",
        "ms",
    ];
    table("Deepest recursion and most steps of a call, at the limits", &columns);
    let measured: Vec<_> = deep_calls().into_iter().map(|(w, c)| (w, c.name, measure(&c))).collect();
    for signature in &crate::call::CALLS {
        let of_it = || measured.iter().filter(|(_, name, _)| *name == signature.name);
        let deepest = of_it().max_by_key(|(_, _, m)| m.used.stack).unwrap();
        let longest = of_it().max_by_key(|(_, _, m)| m.bytes).unwrap();
        deep_row(signature.word, deepest);
        if longest.0 != deepest.0 {
            deep_row(signature.word, longest);
        }
    }
}

fn deep_row(word: &str, (input, _, m): &(String, Name, Measured)) {
    let numbers = [m.used.stack, m.used.memory, m.steps, m.bytes].map(|n| n.to_string());
    let mut cells = vec![word.to_owned(), input.clone(), verdict(m)];
    cells.extend(numbers);
    cells.push(millis(m.time));
    row(&cells);
}

// Every small pair.

/// The best of all pairs with so many nodes together.
fn best_pair(total: usize, dims: u8, score: &(impl Fn(&Tree, &Tree) -> u64 + Sync)) -> (u64, String) {
    let mut best = (0, String::new());
    for nodes in (1..total).step_by(2) {
        let right = faces(total - nodes, dims);
        for left in faces(nodes, dims).chunks(64) {
            let found = fresh(|| best_of(left, &right, score));
            if found.0 > best.0 {
                best = found;
            }
        }
    }
    best
}

fn best_of(left: &[Tree], right: &[Tree], score: &impl Fn(&Tree, &Tree) -> u64) -> (u64, String) {
    let mut best = (0, String::new());
    for a in left {
        for b in right {
            let found = score(a, b);
            if found > best.0 {
                best = (found, format!("{} to {}", notation(a), notation(b)));
            }
        }
    }
    best
}

fn covers(a: &Tree, b: &Tree) -> u64 {
    cost::search(a, b, u64::MAX).1.covers
}

/// Steps and bytes that the Rust leaves in an empty ledger.
fn emitted(d: usize, a: &Tree, b: &Tree) -> (usize, usize) {
    let mut producer = FaceProducer::default();
    let _verdict = producer.entails(d, &rust_face(a), &rust_face(b));
    (producer.path.p.steps.len(), ledger_bytes(&producer))
}

fn small_pairs() {
    table(
        "Every small pair",
        &["nodes of a and b together", "most covers, 1 dimension", "pair", "most steps, 2 dimensions", "pair"],
    );
    for total in (2..=12).step_by(2) {
        let (most, pair) = best_pair(total, 1, &covers);
        let mut cells = vec![total.to_string(), most.to_string(), pair];
        if total <= 8 {
            let (steps, pair) = best_pair(total, 2, &|a, b| emitted(2, a, b).0 as u64);
            cells.extend([steps.to_string(), pair]);
        } else {
            cells.extend(["not tried".into(), String::new()]);
        }
        row(&cells);
    }
}

// Families.

/// Right-deep conjunction of the groups.
fn conjoined(groups: Vec<Tree>) -> Tree {
    chain(AND, groups, true)
}

fn same_halves(n: usize) -> (Tree, Tree) {
    (conjoined(vec![or(ft(), ft()); n]), or(ff(), ft()))
}

fn same_thirds(n: usize) -> (Tree, Tree) {
    (conjoined(vec![or(ft(), or(ft(), ft())); n]), or(ff(), ft()))
}

/// The goal is hit only when all groups are taken apart.
fn same_literals(n: usize) -> (Tree, Tree) {
    (conjoined(vec![or(zero(0), zero(0)); n]), and(zero(0), ft()))
}

/// All branches succeed but those of the first group's right half.
fn nearly_true(n: usize) -> (Tree, Tree) {
    let mut groups = vec![or(zero(0), ft())];
    groups.extend(vec![or(ft(), ft()); n]);
    (conjoined(groups), and(zero(0), zero(0)))
}

fn both_sides(n: usize) -> (Tree, Tree) {
    let group = |i| or(zero(i as u8), one(i as u8));
    (conjoined((0..n).map(group).collect()), or(ff(), ft()))
}

/// Each branch ends in a clash with the first group, found at the far end.
fn late_clash(n: usize) -> (Tree, Tree) {
    let group = |i| or(zero(2 * i as u8), zero(2 * i as u8 + 1));
    let mut groups: Vec<_> = (0..n).map(group).collect();
    groups.push(and(one(0), one(1)));
    (conjoined(groups), ff())
}

/// The same with groups of three; at n 5 the smallest input found that no
/// ledger holds.
fn mixed(n: usize) -> (Tree, Tree) {
    let mut next = 0;
    let mut literal = || {
        next += 1;
        zero(next - 1)
    };
    let mut groups = vec![or(literal(), literal())];
    groups.extend((0..n).map(|_| or(literal(), or(literal(), literal()))));
    groups.extend((0..2).map(|_| or(literal(), literal())));
    groups.push(and(one(0), one(1)));
    (conjoined(groups), ff())
}

fn turned(n: usize) -> (Tree, Tree) {
    (conjunction(0..n), conjunction((0..n).rev()))
}

pub type Family = fn(usize) -> (Tree, Tree);

/// Searches that repeat themselves, with the sizes that the Rust ends on soon.
pub const EXPONENTIAL: [(&str, Family, &[usize]); 4] = [
    ("n times (ft for ft), to ff for ft, d 0", same_halves, &[4, 8, 12, 14, 16]),
    ("n times (ft for (ft for ft)), to ff for ft, d 0", same_thirds, &[4, 8, 10]),
    ("0 for ft, n times (ft for ft), to 0 fand 0", nearly_true, &[8, 12]),
    ("n times (0 for 0), to 0 fand ft", same_literals, &[]),
];

/// Searches that emit most; the sizes are below those whose steps no ledger holds.
pub const EMITTING: [(&str, Family, &[usize]); 4] = [
    ("(0 for 0') fand (1 for 1') .., to ff for ft", both_sides, &[4, 8]),
    ("(0 for 1) fand (2 for 3) .. fand (0' fand 1'), to ff", late_clash, &[4, 8]),
    ("0 for 1, n groups of three, two of two, 0' fand 1', to ff", mixed, &[3, 4]),
    ("n literals, to the same turned round", turned, &[32, 64]),
];

/// The question of a family at this size, d being the least that suffices.
pub fn question(family: Family, n: usize) -> Call {
    let (a, b) = family(n);
    entails(a.bound().max(b.bound()), &a, &b)
}

/// The largest size that the door lets in.
pub fn largest(family: Family) -> usize {
    (1..).take_while(|n| door::admit(&question(family, *n)).is_ok()).last().expect("a size")
}

fn family_row(words: &str, n: usize, family: Family) {
    let (a, b) = family(n);
    let d = a.bound().max(b.bound());
    let (_, cost) = fresh(|| cost::search(&a, &b, u64::MAX));
    let m = measure(&entails(d, &a, &b));
    let answer = m.said.map_or("no".into(), |step| format!("yes {step}"));
    let mut cells = vec![words.to_owned(), n.to_string(), a.nodes().to_string(), answer];
    cells.extend([cost.covers as usize, cost.deepest as usize, m.steps, m.bytes].map(|n| n.to_string()));
    cells.push(millis(m.time));
    row(&cells);
}

const FAMILY: [&str; 9] =
    ["a to b", "n", "nodes of a", "answer", "covers", "deepest cover", "steps", "ledger, bytes", "ms"];

fn exponential() {
    table("Exponential time, few steps", &FAMILY);
    for (words, family, sizes) in EXPONENTIAL {
        sizes.iter().for_each(|n| family_row(words, *n, family));
    }
}

/// The smallest n whose steps no ledger holds.
fn first_over(family: Family, from: usize) -> usize {
    let over = |n: &usize| {
        let (a, b) = family(*n);
        fresh(|| emitted(a.bound().max(b.bound()), &a, &b).1) > LONGEST
    };
    (from..).find(over).unwrap()
}

fn emission() {
    table("Most steps: the last row of each is the first that no ledger of 1,048,576 bytes holds", &FAMILY);
    for (words, family, sizes) in EMITTING {
        sizes.iter().for_each(|n| family_row(words, *n, family));
        family_row(words, first_over(family, *sizes.last().unwrap() + 1), family);
    }
}

// Climbing: keep a change when the score does not fall.

/// Any node, more often one near the root.
pub fn some_node<'a>(t: &'a mut Tree, random: &mut Random) -> &'a mut Tree {
    if t.parts.is_empty() || random.chance(25) {
        return t;
    }
    let i = random.below(t.parts.len());
    some_node(&mut t.parts[i], random)
}

/// (x y) z becomes x (y z), the kinds staying where they were.
fn turned_right(t: &Tree) -> Option<Tree> {
    let [left, z] = &t.parts[..] else { return None };
    let [x, y] = &left.parts[..] else { return None };
    Some(pair(left.kind, x.clone(), pair(t.kind, y.clone(), z.clone())))
}

/// x (y z) becomes (x y) z.
fn turned_left(t: &Tree) -> Option<Tree> {
    let [x, right] = &t.parts[..] else { return None };
    let [y, z] = &right.parts[..] else { return None };
    Some(pair(right.kind, pair(t.kind, x.clone(), y.clone()), z.clone()))
}

/// The tree with one node changed: its kind, its parts exchanged or turned, or another face of its size.
pub fn changed(t: &Tree, random: &mut Random, dims: &[u8]) -> Tree {
    let mut t = t.clone();
    let shape = *random.pick(&SHAPES);
    let node = some_node(&mut t, random);
    match random.below(5) {
        0 if !node.parts.is_empty() => node.kind = AND + OR - node.kind,
        1 if !node.parts.is_empty() => node.parts.swap(0, 1),
        2 => *node = turned_right(node).unwrap_or(node.clone()),
        3 => *node = turned_left(node).unwrap_or(node.clone()),
        _ => *node = face(random, shape, node.nodes(), dims),
    }
    t
}

fn climbed(seed: u64, nodes: (usize, usize), score: &impl Fn(&Tree, &Tree) -> u64) -> (u64, String) {
    let dims: Vec<u8> = (0..5).collect();
    let mut random = Random::new(seed);
    let start = |n, r: &mut Random| face(r, Shape::Scattered, n, &dims);
    let (mut a, mut b) = (start(nodes.0, &mut random), start(nodes.1, &mut random));
    let mut best = score(&a, &b);
    for _ in 0..4_000 {
        let (mut a2, mut b2) = (a.clone(), b.clone());
        for _ in 0..random.between(1, 3) {
            let side = if random.chance(80) { &mut a2 } else { &mut b2 };
            *side = changed(side, &mut random, &dims);
        }
        let found = score(&a2, &b2);
        if found >= best {
            (a, b, best) = (a2, b2, found);
        }
    }
    (best, format!("{} to {}", notation(&a), notation(&b)))
}

/// What a climb makes large.
type Score<'a> = &'a (dyn Fn(&Tree, &Tree) -> u64 + Sync);

fn climbs() {
    table("Found by climbing from random pairs over 5 dimensions", &["nodes of a, b", "most", "number", "pair"]);
    for nodes in [(11, 1), (15, 1), (11, 5)] {
        let climb = |score: Score| {
            let runs = (0..6).map(|seed| fresh(|| climbed(seed, nodes, &score)));
            runs.max_by_key(|(n, _)| *n).unwrap()
        };
        let steps: Score = &|a, b| emitted(5, a, b).0 as u64;
        let bytes: Score = &|a, b| emitted(5, a, b).1 as u64;
        let scores: [(&str, Score); 3] = [("covers", &covers), ("steps", steps), ("ledger bytes", bytes)];
        for (words, score) in scores {
            let (most, pair) = climb(score);
            row(&[format!("{}, {}", nodes.0, nodes.1), words.into(), most.to_string(), pair]);
        }
    }
}

/// Prints all tables as Markdown.
pub fn print() {
    println!("{INTRODUCTION}");
    deep();
    small_pairs();
    exponential();
    emission();
    climbs();
}

const INTRODUCTION: &str = include_str!("worst.md");

//! Every small formula, and every call on small formulas.
use crate::call::{Call, Name};
use crate::check::{self, Tally};
use crate::desk::Desk;
use crate::formula::*;
use crate::ledger::LONGEST;
use crate::session::fresh;

/// Every face with exactly so many nodes over so many dimensions.
pub fn faces(nodes: usize, dims: u8) -> Vec<Tree> {
    if nodes == 1 {
        let literals = (0..dims).flat_map(|n| [at(AT0, n), at(AT1, n)]);
        return [leaf(FF), leaf(FT)].into_iter().chain(literals).collect();
    }
    compounds(nodes, &[AND, OR], &|n| faces(n, dims))
}

/// Every interval with exactly so many nodes over so many dimensions.
pub fn intervals(nodes: usize, dims: u8) -> Vec<Tree> {
    if nodes == 1 {
        return [leaf(I0), leaf(I1)].into_iter().chain((0..dims).map(|n| at(DIM, n))).collect();
    }
    let mut out: Vec<_> = intervals(nodes - 1, dims).into_iter().map(not).collect();
    out.extend(compounds(nodes, &[MEET, JOIN], &|n| intervals(n, dims)));
    out
}

fn compounds(nodes: usize, kinds: &[u8], parts: &dyn Fn(usize) -> Vec<Tree>) -> Vec<Tree> {
    let mut out = vec![];
    for left in 1..nodes.saturating_sub(1) {
        for a in parts(left) {
            for b in parts(nodes - 1 - left) {
                out.extend(kinds.iter().map(|k| pair(*k, a.clone(), b.clone())));
            }
        }
    }
    out
}

pub fn faces_up_to(nodes: usize, dims: u8) -> Vec<Tree> {
    (1..=nodes).flat_map(|n| faces(n, dims)).collect()
}

pub fn intervals_up_to(nodes: usize, dims: u8) -> Vec<Tree> {
    (1..=nodes).flat_map(|n| intervals(n, dims)).collect()
}

/// So many calls share one ledger before the next starts empty.
const SHARED: usize = 200;

/// Runs calls in lists of so many, each list from an empty ledger.
fn in_lists(calls: &[Call], each: usize) -> Tally {
    let mut tally = Tally::default();
    let desk = Desk::default();
    for list in calls.chunks(each) {
        check::run(LONGEST, list, &desk, &mut tally);
    }
    tally
}

/// Entails on every pair of faces up to 5 nodes over 2 dimensions, d being 2;
/// for each left face the right ones share ledgers.
pub fn entailments(left: &[Tree]) -> Tally {
    let right = faces_up_to(5, 2);
    let mut tally = Tally::default();
    for a in left {
        tally.add(fresh(|| {
            let calls: Vec<_> = right.iter().map(|b| Call::new(Name::Entails, 2, &[a, b])).collect();
            in_lists(&calls, SHARED)
        }));
    }
    tally
}

/// Entails on every pair up to 3 nodes, d from 0 to 3, each from an empty ledger.
pub fn small_entailments() -> Tally {
    let faces = faces_up_to(3, 2);
    let mut tally = Tally::default();
    for a in &faces {
        tally.add(fresh(|| {
            let pairs = faces.iter().flat_map(|b| (0..4).map(move |d| Call::new(Name::Entails, d, &[a, b])));
            in_lists(&pairs.collect::<Vec<_>>(), 1)
        }));
    }
    tally
}

/// Every other call on small formulas.
pub fn operations() -> Tally {
    let (faces, intervals) = (faces_up_to(5, 2), intervals_up_to(4, 2));
    let (few_faces, few_intervals) = (faces_up_to(3, 2), intervals_up_to(3, 2));
    let mut tally = Tally::default();
    let each = |f: &Tree, number: usize, others: &[&Tree], names: &[Name]| {
        let operands: Vec<_> = std::iter::once(f).chain(others.iter().copied()).collect();
        names.iter().map(|n| Call::new(*n, number, &operands)).collect::<Vec<_>>()
    };
    let mut calls = vec![];
    for n in 0..4 {
        for f in &faces {
            calls.extend(each(f, n, &[], &[Name::Face, Name::Forall, Name::FaceShift]));
        }
        for r in &intervals {
            calls.extend(each(r, n, &[], &[Name::Interval, Name::Boundary, Name::IntervalShift]));
        }
        for r in &few_intervals {
            few_faces.iter().for_each(|f| calls.extend(each(f, n, &[r], &[Name::FaceSubstitute])));
            few_intervals.iter().for_each(|t| calls.extend(each(t, n, &[r], &[Name::IntervalSubstitute])));
            for one in [false, true] {
                calls.extend(few_faces.iter().map(|phi| Call::endpoint(n, phi, r, one)));
            }
        }
    }
    for part in calls.chunks(20 * SHARED) {
        tally.add(fresh(|| in_lists(part, SHARED)));
    }
    tally
}

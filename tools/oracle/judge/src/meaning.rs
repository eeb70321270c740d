//! What formulas mean, by trying assignments: independent of the Rust and of
//! every search. Document 01, "Formulas and their meaning" and "Truth".
use crate::formula::*;
use crate::random::Random;

pub const ZERO: u8 = 0;
pub const ONE: u8 = 1;
pub const UNDETERMINED: u8 = 2;

/// A value for each place; places up to 256 can be asked after a removal.
pub type Assignment = [u8; 258];

pub const OPEN: Assignment = [UNDETERMINED; 258];

pub fn value(t: &Tree, at: &Assignment) -> u8 {
    match t.kind {
        I0 => ZERO,
        I1 => ONE,
        DIM => at[usize::from(t.dim)],
        NEG => match value(&t.parts[0], at) {
            ZERO => ONE,
            ONE => ZERO,
            _ => UNDETERMINED,
        },
        kind => {
            let strong = if kind == MEET { ZERO } else { ONE };
            match (value(&t.parts[0], at), value(&t.parts[1], at)) {
                (a, b) if a == strong || b == strong => strong,
                (a, b) if a == b => a,
                _ => UNDETERMINED,
            }
        }
    }
}

pub fn holds(t: &Tree, at: &Assignment) -> bool {
    match t.kind {
        FF => false,
        FT => true,
        AT0 => at[usize::from(t.dim)] == ZERO,
        AT1 => at[usize::from(t.dim)] == ONE,
        AND => holds(&t.parts[0], at) && holds(&t.parts[1], at),
        _ => holds(&t.parts[0], at) || holds(&t.parts[1], at),
    }
}

/// A face's truth or an interval's value, as one number.
fn worth(t: &Tree, at: &Assignment) -> u8 {
    match t.sort() {
        Sort::Face => u8::from(holds(t, at)),
        Sort::Interval => value(t, at),
    }
}

/// Places from k on move up by one, and k gets the value.
pub fn inserted(at: &Assignment, k: u8, v: u8) -> Assignment {
    let k = usize::from(k);
    let mut out = *at;
    out[k + 1..].copy_from_slice(&at[k..at.len() - 1]);
    out[k] = v;
    out
}

/// Place k goes, and the places above it move down by one.
pub fn removed(at: &Assignment, k: u8) -> Assignment {
    let k = usize::from(k);
    let mut out = *at;
    out[k..at.len() - 1].copy_from_slice(&at[k + 1..]);
    out
}

/// The places that the formulas name, each once.
pub fn places(formulas: &[&Tree]) -> Vec<usize> {
    let mut named = [false; 258];
    for f in formulas {
        f.dims(&mut |n| named[usize::from(n)] = true);
    }
    (0..258).filter(|&n| named[n]).collect()
}

/// How far a check looked.
#[derive(Clone, Copy, PartialEq, Debug)]
pub enum Reach {
    /// Every assignment of the places that matter.
    All,
    /// A few hundred of them, when there are too many places.
    Some,
}

/// The most places that are tried exhaustively: 3 to the 7th is 2,187.
const MOST_PLACES: usize = 7;

/// Tries assignments until `good` says no; answers whether none did.
fn tried(places: &[usize], mut good: impl FnMut(&Assignment) -> bool) -> (bool, Reach) {
    if places.len() <= MOST_PLACES {
        return (all(places, &mut good), Reach::All);
    }
    let mut random = Random::new(places.len() as u64);
    let some = (0..200).all(|_| good(&scattered(places, &mut random)));
    (some, Reach::Some)
}

fn all(places: &[usize], good: &mut impl FnMut(&Assignment) -> bool) -> bool {
    let mut at = OPEN;
    for mut number in 0..3_usize.pow(places.len() as u32) {
        for &place in places {
            at[place] = (number % 3) as u8;
            number /= 3;
        }
        if !good(&at) {
            return false;
        }
    }
    true
}

fn scattered(places: &[usize], random: &mut Random) -> Assignment {
    let mut at = OPEN;
    for &place in places {
        at[place] = random.below(3) as u8;
    }
    at
}

/// Whether a entails b over all assignments; None where there are too many.
pub fn entails(a: &Tree, b: &Tree) -> Option<bool> {
    match tried(&places(&[a, b]), |at| !holds(a, at) || holds(b, at)) {
        (true, Reach::Some) => None,
        (good, _) => Some(good),
    }
}

/// Whether r has the end's value wherever phi holds; None as above.
pub fn local(phi: &Tree, r: &Tree, one: bool) -> Option<bool> {
    let end = if one { ONE } else { ZERO };
    match tried(&places(&[phi, r]), |at| !holds(phi, at) || value(r, at) == end) {
        (true, Reach::Some) => None,
        (good, _) => Some(good),
    }
}

pub fn boundary(r: &Tree, a: &Tree, b: &Tree) -> (bool, Reach) {
    tried(&places(&[r, a, b]), |at| {
        let v = value(r, at);
        holds(a, at) == (v == ZERO) && holds(b, at) == (v == ONE)
    })
}

/// The places of f once place k is gone, with those of the other formulas.
fn places_without(f: &Tree, k: u8, others: &[&Tree]) -> Vec<usize> {
    let k = usize::from(k);
    let mut all = places(others);
    all.extend(places(&[f]).into_iter().filter(|&n| n != k).map(|n| if n > k { n - 1 } else { n }));
    all.sort_unstable();
    all.dedup();
    all
}

/// The places of f with room made at k, with those of the result.
fn places_with(f: &Tree, k: u8, out: &Tree) -> Vec<usize> {
    let k = usize::from(k);
    let mut all = places(&[out]);
    all.extend(places(&[f]).into_iter().map(|n| if n >= k { n + 1 } else { n }));
    all.push(k);
    all.sort_unstable();
    all.dedup();
    all
}

pub fn forall(f: &Tree, k: u8, out: &Tree) -> (bool, Reach) {
    tried(&places_without(f, k, &[out]), |at| holds(out, at) == holds(f, &inserted(at, k, UNDETERMINED)))
}

pub fn shift(f: &Tree, k: u8, out: &Tree) -> (bool, Reach) {
    tried(&places_with(f, k, out), |at| worth(out, at) == worth(f, &removed(at, k)))
}

pub fn substitute(f: &Tree, k: u8, r: &Tree, out: &Tree) -> (bool, Reach) {
    tried(&places_without(f, k, &[r, out]), |at| worth(out, at) == worth(f, &inserted(at, k, value(r, at))))
}

/// One clause: the dimensions set to zero, and those set to one, as bits.
type Clause = [[u64; 4]; 2];

/// The most clauses that are looked at.
const MOST_CLAUSES: usize = 4_096;

fn joined(a: &Clause, b: &Clause) -> Option<Clause> {
    let mut out = *a;
    for side in 0..2 {
        for word in 0..4 {
            out[side][word] |= b[side][word];
        }
    }
    (0..4).all(|w| out[0][w] & out[1][w] == 0).then_some(out)
}

/// The least assignments that satisfy a face; None where there are too many.
fn clauses(t: &Tree) -> Option<Vec<Clause>> {
    let found = match t.kind {
        FF => vec![],
        FT => vec![[[0; 4]; 2]],
        AT0 | AT1 => {
            let mut one = [[0; 4]; 2];
            one[usize::from(t.kind - AT0)][usize::from(t.dim) / 64] |= 1 << (t.dim % 64);
            vec![one]
        }
        AND => {
            let (left, right) = (clauses(&t.parts[0])?, clauses(&t.parts[1])?);
            if left.len() * right.len() > 64 * MOST_CLAUSES {
                return None;
            }
            left.iter().flat_map(|a| right.iter().filter_map(|b| joined(a, b))).collect()
        }
        _ => {
            let mut both = clauses(&t.parts[0])?;
            both.extend(clauses(&t.parts[1])?);
            both
        }
    };
    distinct(found)
}

fn distinct(mut found: Vec<Clause>) -> Option<Vec<Clause>> {
    found.sort_unstable();
    found.dedup();
    (found.len() <= MOST_CLAUSES).then_some(found)
}

fn least(clause: &Clause) -> Assignment {
    let mut at = OPEN;
    for n in 0..256 {
        for (value, side) in [ZERO, ONE].into_iter().zip(clause) {
            if side[n / 64] >> (n % 64) & 1 == 1 {
                at[n] = value;
            }
        }
    }
    at
}

/// One of the least assignments, each alternative drawn; None for a clash.
fn some_clause(t: &Tree, random: &mut Random) -> Option<Clause> {
    match t.kind {
        AND => joined(&some_clause(&t.parts[0], random)?, &some_clause(&t.parts[1], random)?),
        OR => {
            let half = random.below(2);
            some_clause(&t.parts[half], random)
        }
        _ => clauses(t)?.pop(),
    }
}

/// Whether some least assignments of a refute b.
fn refuted(a: &Tree, b: &Tree) -> bool {
    let mut random = Random::new(1);
    (0..2_000).any(|_| some_clause(a, &mut random).is_some_and(|c| !holds(b, &least(&c))))
}

/// The same question for many dimensions: a face only gains by determining
/// more, so a entails b when b holds at the least assignments satisfying a.
pub fn entails_by_clauses(a: &Tree, b: &Tree) -> Option<bool> {
    match clauses(a) {
        Some(all) => Some(all.iter().all(|clause| holds(b, &least(clause)))),
        None => refuted(a, b).then_some(false),
    }
}

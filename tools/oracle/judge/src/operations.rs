//! The operations on trees, written plainly from document 01: what the door
//! needs for questions 5 and 6, and what the Rust's results are held against.
use crate::formula::*;

/// The two faces of an interval: where it is zero, where it is one.
pub fn boundary(r: &Tree) -> (Tree, Tree) {
    match r.kind {
        I0 => (leaf(FT), leaf(FF)),
        I1 => (leaf(FF), leaf(FT)),
        DIM => (at(AT0, r.dim), at(AT1, r.dim)),
        NEG => {
            let (a, b) = boundary(&r.parts[0]);
            (b, a)
        }
        kind => {
            let (a, b) = boundary(&r.parts[0]);
            let (c, d) = boundary(&r.parts[1]);
            let (zero, one) = if kind == MEET { (OR, AND) } else { (AND, OR) };
            (pair(zero, a, c), pair(one, b, d))
        }
    }
}

/// The same tree with every literal replaced.
fn map(t: &Tree, literal: &impl Fn(&Tree) -> Tree) -> Tree {
    if has_dimension(t.kind) {
        return literal(t);
    }
    let parts = t.parts.iter().map(|p| map(p, literal)).collect();
    Tree { parts, ..leaf(t.kind) }
}

/// The dimension after place k is gone; None at k itself.
fn lowered(n: u8, k: u8) -> Option<u8> {
    match n.cmp(&k) {
        std::cmp::Ordering::Less => Some(n),
        std::cmp::Ordering::Equal => None,
        std::cmp::Ordering::Greater => Some(n - 1),
    }
}

pub fn forall(f: &Tree, k: u8) -> Tree {
    map(f, &|t| lowered(t.dim, k).map_or(leaf(FF), |n| at(t.kind, n)))
}

pub fn shift(f: &Tree, k: u8) -> Tree {
    map(f, &|t| at(t.kind, if t.dim < k { t.dim } else { t.dim + 1 }))
}

pub fn substitute(f: &Tree, k: u8, r: &Tree) -> Tree {
    let (zero, one) = boundary(r);
    map(f, &|t| match (lowered(t.dim, k), t.kind) {
        (Some(n), kind) => at(kind, n),
        (None, AT0) => zero.clone(),
        (None, AT1) => one.clone(),
        (None, _) => r.clone(),
    })
}

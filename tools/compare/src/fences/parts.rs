//! What formulas of a given depth are built of: ways from the root down, and other formulas in the place of leaves.
use judge::formula::{AND, AT0, AT1, DIM, I0, JOIN, MEET, OR, Sort, Tree, at, leaf, not, pair};

pub const SORTS: [Sort; 2] = [Sort::Face, Sort::Interval];

/// The kinds with two parts.
pub fn kinds(sort: Sort) -> [u8; 2] {
    if sort == Sort::Face { [AND, OR] } else { [MEET, JOIN] }
}

/// The leaves of a dimension.
pub fn literals(sort: Sort, n: u8) -> Vec<Tree> {
    let kinds: &[u8] = if sort == Sort::Face { &[AT0, AT1] } else { &[DIM] };
    kinds.iter().map(|kind| at(*kind, n)).collect()
}

/// The first of them.
pub fn literal(sort: Sort, n: u8) -> Tree {
    literals(sort, n).swap_remove(0)
}

pub fn constant(sort: Sort) -> Tree {
    leaf(if sort == Sort::Face { 0 } else { I0 })
}

/// Where a way goes on from a node: to the left or right one of its two parts, or below a neg.
#[derive(Clone, Copy, PartialEq, Debug)]
pub enum Turn {
    Left,
    Right,
    Neg,
}

/// Ways, each to be gone again and again: left-deep, right-deep, zigzags, chains of neg, neg between nodes of two parts.
const WAYS: [&[Turn]; 13] = {
    use Turn::{Left, Neg, Right};
    [
        &[Left],
        &[Right],
        &[Left, Right],
        &[Right, Left],
        &[Left, Left, Right],
        &[Neg],
        &[Neg, Left],
        &[Neg, Right],
        &[Left, Neg],
        &[Right, Neg],
        &[Neg, Neg, Left],
        &[Neg, Left, Right],
        &[Right, Neg, Left, Neg],
    ]
};

/// The ways that formulas of the sort have.
pub fn ways(sort: Sort) -> Vec<&'static [Turn]> {
    WAYS.into_iter().filter(|way| sort == Sort::Interval || !way.contains(&Turn::Neg)).collect()
}

/// So many turns of a way.
pub fn turns(way: &[Turn], count: usize) -> Vec<Turn> {
    way.iter().copied().cycle().take(count).collect()
}

/// The tip at the end of these turns. A node of two parts gets its kind and its other part for its own depth.
pub fn down(turns: &[Turn], tip: Tree, beside: &mut impl FnMut(usize) -> (u8, Tree)) -> Tree {
    turns.iter().enumerate().rev().fold(tip, |below, (depth, turn)| {
        if *turn == Turn::Neg {
            return not(below);
        }
        let (kind, other) = beside(depth);
        if *turn == Turn::Left { pair(kind, below, other) } else { pair(kind, other, below) }
    })
}

/// The same with one leaf beside all nodes, their kinds in turn.
pub fn way_down(sort: Sort, turns: &[Turn], tip: Tree, beside: &Tree) -> Tree {
    down(turns, tip, &mut |depth| (kinds(sort)[depth % 2], beside.clone()))
}

pub fn leaves(t: &Tree) -> usize {
    if t.parts.is_empty() { 1 } else { t.parts.iter().map(leaves).sum() }
}

/// What stands in the place of each leaf, from left to right, made from the leaf and its depth below this one.
pub fn grafted(t: Tree, depth: usize, graft: &mut impl FnMut(Tree, usize) -> Tree) -> Tree {
    if t.parts.is_empty() {
        return graft(t, depth);
    }
    let parts = t.parts.into_iter().map(|part| grafted(part, depth + 1, graft)).collect();
    Tree { parts, ..t }
}

/// Another formula in the place of one leaf.
pub fn with_leaf(t: Tree, place: usize, other: &Tree) -> Tree {
    let mut next = 0;
    grafted(t, 0, &mut |leaf, _| {
        next += 1;
        if next - 1 == place { other.clone() } else { leaf }
    })
}

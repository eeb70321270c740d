//! What faces to normalize are built of.
use judge::formula::{AND, AT0, AT1, OR, Tree, at, pair};
use judge::random::{Random, Shape, grown};

/// The dimensions that are let in.
pub const DIMENSIONS: usize = 255;
/// The most leaves: 511 nodes.
pub const LEAVES: usize = 256;

pub fn zero(n: usize) -> Tree {
    at(AT0, n as u8)
}

pub fn one(n: usize) -> Tree {
    at(AT1, n as u8)
}

pub fn both(a: Tree, b: Tree) -> Tree {
    pair(AND, a, b)
}

pub fn either(a: Tree, b: Tree) -> Tree {
    pair(OR, a, b)
}

/// The literal of the other side.
pub fn opposite(literal: &Tree) -> Tree {
    at(AT0 + AT1 - literal.kind, literal.dim)
}

/// One part or more, in this order, under nodes of one kind.
pub fn joined(random: &mut Random, kind: u8, shape: Shape, parts: &[Tree]) -> Tree {
    let mut next = parts.iter();
    grown(shape, parts.len(), random, &mut |_| kind, &mut |_| next.next().expect("a part for each leaf").clone())
}

/// The same in a shape that leaves nothing to chance.
pub fn nested(kind: u8, shape: Shape, parts: &[Tree]) -> Tree {
    joined(&mut Random::new(0), kind, shape, parts)
}

/// Zero sides from a dimension on.
pub fn zeros(from: usize, count: usize) -> Vec<Tree> {
    (from..from + count).map(zero).collect()
}

/// These parts under for, left-deep.
pub fn sum(parts: &[Tree]) -> Tree {
    nested(OR, Shape::LeftDeep, parts)
}

/// These parts under fand, left-deep.
pub fn conjunction(parts: &[Tree]) -> Tree {
    nested(AND, Shape::LeftDeep, parts)
}

/// A dimension's two sides, zero side first.
pub fn sides(n: usize) -> Tree {
    either(zero(n), one(n))
}

/// Every choice of a side for each of these dimensions: two to their number of clauses from twice as many leaves.
pub fn choices(dims: impl IntoIterator<Item = usize>, shape: Shape) -> Tree {
    nested(AND, shape, &dims.into_iter().map(sides).collect::<Vec<_>>())
}

pub fn leaves(t: &Tree) -> usize {
    t.nodes().div_ceil(2)
}

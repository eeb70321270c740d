//! A small generator of numbers (splitmix64) and of formulas of every shape.
use crate::formula::*;

pub struct Random(u64);

impl Random {
    pub fn new(seed: u64) -> Self {
        Self(seed)
    }
    pub fn draw(&mut self) -> u64 {
        self.0 = self.0.wrapping_add(0x9e37_79b9_7f4a_7c15);
        let mut z = self.0;
        z = (z ^ (z >> 30)).wrapping_mul(0xbf58_476d_1ce4_e5b9);
        z = (z ^ (z >> 27)).wrapping_mul(0x94d0_49bb_1331_11eb);
        z ^ (z >> 31)
    }
    pub fn below(&mut self, n: usize) -> usize {
        (self.draw() % n as u64) as usize
    }
    pub fn between(&mut self, low: usize, high: usize) -> usize {
        low + self.below(high - low + 1)
    }
    /// Yes in so many of a hundred cases.
    pub fn chance(&mut self, percent: usize) -> bool {
        self.below(100) < percent
    }
    pub fn pick<'a, T>(&mut self, from: &'a [T]) -> &'a T {
        &from[self.below(from.len())]
    }
    /// Small sizes as often as large ones.
    pub fn size(&mut self, most: usize) -> usize {
        let bits = usize::BITS - most.leading_zeros();
        let high = (1_usize << self.between(1, bits as usize)) - 1;
        self.between(1, high.min(most))
    }
}

#[derive(Clone, Copy, PartialEq, Debug)]
pub enum Shape {
    LeftDeep,
    RightDeep,
    Balanced,
    Scattered,
}

pub const SHAPES: [Shape; 4] = [Shape::LeftDeep, Shape::RightDeep, Shape::Balanced, Shape::Scattered];

/// How many of the leaves go to the left part.
fn left_share(shape: Shape, leaves: usize, random: &mut Random) -> usize {
    match shape {
        Shape::LeftDeep => leaves - 1,
        Shape::RightDeep => 1,
        Shape::Balanced => leaves / 2,
        Shape::Scattered => random.between(1, leaves - 1),
    }
}

/// A tree with so many leaves, its nodes and leaves as given.
pub fn grown(
    shape: Shape,
    leaves: usize,
    random: &mut Random,
    node: &mut impl FnMut(&mut Random) -> u8,
    tip: &mut impl FnMut(&mut Random) -> Tree,
) -> Tree {
    if leaves == 1 {
        return tip(random);
    }
    let left = left_share(shape, leaves, random);
    let kind = node(random);
    let a = grown(shape, left, random, node, tip);
    let b = grown(shape, leaves - left, random, node, tip);
    pair(kind, a, b)
}

/// A face of at most so many nodes over these dimensions.
pub fn face(random: &mut Random, shape: Shape, nodes: usize, dims: &[u8]) -> Tree {
    let bias = *random.pick(&[10, 50, 50, 90]);
    let constants = *random.pick(&[0, 5, 30]);
    grown(shape, nodes.div_ceil(2), random, &mut |r| if r.chance(bias) { AND } else { OR }, &mut |r| {
        face_leaf(r, constants, dims)
    })
}

fn face_leaf(random: &mut Random, constants: usize, dims: &[u8]) -> Tree {
    if dims.is_empty() || random.chance(constants) {
        return leaf(*random.pick(&[FF, FT]));
    }
    at(*random.pick(&[AT0, AT1]), *random.pick(dims))
}

/// An interval of at most so many nodes over these dimensions.
pub fn interval(random: &mut Random, shape: Shape, nodes: usize, dims: &[u8]) -> Tree {
    let bias = *random.pick(&[10, 50, 90]);
    let constants = *random.pick(&[0, 5, 30]);
    let tree = grown(shape, nodes.div_ceil(2), random, &mut |r| if r.chance(bias) { MEET } else { JOIN }, &mut |r| {
        interval_leaf(r, constants, dims)
    });
    // Half of them spend part of their nodes on negations instead.
    if random.chance(50) { tree } else { negated(random, nodes, tree) }
}

fn interval_leaf(random: &mut Random, constants: usize, dims: &[u8]) -> Tree {
    if dims.is_empty() || random.chance(constants) {
        return leaf(*random.pick(&[I0, I1]));
    }
    at(DIM, *random.pick(dims))
}

/// Puts negations over parts, while the whole keeps to so many nodes.
fn negated(random: &mut Random, nodes: usize, tree: Tree) -> Tree {
    let mut spare = nodes.saturating_sub(tree.nodes());
    if spare == 0 && tree.parts.len() == 2 {
        // Leave out one part to gain room.
        let kept = tree.parts.into_iter().nth(random.below(2)).unwrap();
        return negated(random, nodes, kept);
    }
    with_negations(random, &mut spare, tree)
}

fn with_negations(random: &mut Random, spare: &mut usize, mut tree: Tree) -> Tree {
    let parts = std::mem::take(&mut tree.parts);
    tree.parts = parts.into_iter().map(|p| with_negations(random, spare, p)).collect();
    while *spare > 0 && random.chance(40) {
        *spare -= 1;
        tree = not(tree);
    }
    tree
}

//! Formulas of both sorts as one tree, and document 01's prefix bytes.

pub const FF: u8 = 0;
pub const FT: u8 = 1;
pub const AT0: u8 = 2;
pub const AT1: u8 = 3;
pub const AND: u8 = 4;
pub const OR: u8 = 5;
pub const I0: u8 = 16;
pub const I1: u8 = 17;
pub const DIM: u8 = 18;
pub const NEG: u8 = 19;
pub const MEET: u8 = 20;
pub const JOIN: u8 = 21;

/// The Rust's name of each kind byte.
pub const HEADS: [(u8, &str); 12] = [
    (FF, "ff"),
    (FT, "ft"),
    (AT0, "at0"),
    (AT1, "at1"),
    (AND, "fand"),
    (OR, "for"),
    (I0, "i0"),
    (I1, "i1"),
    (DIM, "dim"),
    (NEG, "neg"),
    (MEET, "meet"),
    (JOIN, "join"),
];

#[derive(Clone, Copy, PartialEq, Eq, Debug)]
pub enum Sort {
    Face,
    Interval,
}

impl Sort {
    pub fn has(self, kind: u8) -> bool {
        match self {
            Sort::Face => (FF..=OR).contains(&kind),
            Sort::Interval => (I0..=JOIN).contains(&kind),
        }
    }
}

/// A node: its kind byte, its dimension (0 where the kind has none), its parts.
#[derive(Clone, PartialEq, Eq, Hash, Debug)]
pub struct Tree {
    pub kind: u8,
    pub dim: u8,
    pub parts: Vec<Tree>,
}

pub fn has_dimension(kind: u8) -> bool {
    matches!(kind, AT0 | AT1 | DIM)
}

pub fn part_count(kind: u8) -> usize {
    match kind {
        NEG => 1,
        AND | OR | MEET | JOIN => 2,
        _ => 0,
    }
}

pub fn leaf(kind: u8) -> Tree {
    at(kind, 0)
}

pub fn at(kind: u8, dim: u8) -> Tree {
    Tree { kind, dim, parts: vec![] }
}

pub fn not(part: Tree) -> Tree {
    Tree { kind: NEG, dim: 0, parts: vec![part] }
}

pub fn pair(kind: u8, left: Tree, right: Tree) -> Tree {
    Tree { kind, dim: 0, parts: vec![left, right] }
}

impl Tree {
    pub fn sort(&self) -> Sort {
        if self.kind < I0 { Sort::Face } else { Sort::Interval }
    }
    pub fn nodes(&self) -> usize {
        1 + self.parts.iter().map(Tree::nodes).sum::<usize>()
    }
    /// Calls `see` with every dimension, left to right.
    pub fn dims(&self, see: &mut impl FnMut(u8)) {
        if has_dimension(self.kind) {
            see(self.dim);
        }
        self.parts.iter().for_each(|p| p.dims(see));
    }
    /// One more than the largest dimension, 0 if there is none.
    pub fn bound(&self) -> usize {
        let mut bound = 0;
        self.dims(&mut |n| bound = bound.max(usize::from(n) + 1));
        bound
    }
    pub fn write(&self, out: &mut Vec<u8>) {
        out.push(self.kind);
        if has_dimension(self.kind) {
            out.push(self.dim);
        }
        self.parts.iter().for_each(|p| p.write(out));
    }
    pub fn bytes(&self) -> Vec<u8> {
        let mut out = vec![];
        self.write(&mut out);
        out
    }
}

/// The formula at the front of the bytes, and what follows it.
pub fn read(bytes: &[u8], sort: Sort) -> Option<(Tree, &[u8])> {
    let (&kind, mut rest) = bytes.split_first()?;
    if !sort.has(kind) {
        return None;
    }
    let mut tree = leaf(kind);
    if has_dimension(kind) {
        (tree.dim, rest) = rest.split_first().map(|(d, r)| (*d, r))?;
    }
    for _ in 0..part_count(kind) {
        let (part, after) = read(rest, sort)?;
        tree.parts.push(part);
        rest = after;
    }
    Some((tree, rest))
}

/// The bytes as exactly one formula.
pub fn read_whole(bytes: &[u8], sort: Sort) -> Option<Tree> {
    read(bytes, sort).and_then(|(tree, rest)| rest.is_empty().then_some(tree))
}

//! Random lists of calls that share subformulas, so that emit meets equal
//! judgements; with false implications, dimensions not below d and calls that
//! the door turns away among them.
use crate::call::{CALLS, Call, Name};
use crate::cost;
use crate::door;
use crate::formula::*;
use crate::ledger::LONGEST;
use crate::operations;
use crate::random::{Random, SHAPES, Shape, face, interval};

/// How large the formulas and ledgers of a list are.
#[derive(Clone, Copy)]
pub struct Style {
    pub most_nodes: usize,
    pub most_calls: usize,
    /// The most covers that a search may need.
    pub most_covers: u64,
    pub most_dims: usize,
    pub lengths: &'static [usize],
    /// In how many of a hundred calls something is broken on purpose.
    pub broken: usize,
}

/// Small formulas, many calls.
pub const SMALL: Style = Style {
    most_nodes: 15,
    most_calls: 40,
    most_covers: 400,
    most_dims: 4,
    lengths: &[LONGEST, LONGEST, 65_536, 4_096, 700],
    broken: 3,
};

/// Formulas of every size up to the limits.
pub const LARGE: Style = Style {
    most_nodes: 511,
    most_calls: 40,
    most_covers: 1_500,
    most_dims: 255,
    lengths: &[LONGEST, LONGEST, LONGEST, 300_000, 65_536],
    broken: 2,
};

struct Lists {
    random: Random,
    style: Style,
    dims: Vec<u8>,
    d: usize,
    shape: Option<Shape>,
    faces: Vec<Tree>,
    intervals: Vec<Tree>,
}

/// The dimensions of a list: a few low ones, a few from everywhere, or all.
fn some_dims(random: &mut Random, most: usize) -> Vec<u8> {
    let count = random.size(most);
    if most <= 8 || random.chance(40) {
        return (0..count.min(8) as u8).collect();
    }
    if random.chance(20) {
        return (0..=254).collect();
    }
    let edges = [0, 1, 127, 128, 253, 254];
    let any = |r: &mut Random| if r.chance(30) { *r.pick(&edges) } else { r.below(255) as u8 };
    (0..count).map(|_| any(random)).collect()
}

/// A list by its seed: the ledger's length and the calls.
pub fn list(seed: u64, style: Style) -> (usize, Vec<Call>) {
    let (mut lists, length, count) = start(seed, style);
    let calls = (0..count).map(|_| lists.call()).collect();
    (length, calls)
}

/// Claims that share subformulas, by their seed: d and both faces, whatever their search costs.
pub fn claims(seed: u64, style: Style) -> Vec<(usize, Tree, Tree)> {
    let (mut lists, _, count) = start(seed, style);
    (0..count).map(|_| lists.claim()).collect()
}

/// What a list is made with, its ledger's length, how many calls it has.
fn start(seed: u64, style: Style) -> (Lists, usize, usize) {
    let mut random = Random::new(seed);
    let dims = some_dims(&mut random, style.most_dims);
    let bound = dims.iter().map(|n| usize::from(*n) + 1).max().unwrap_or(0);
    let length = *random.pick(style.lengths);
    let count = random.between(1, style.most_calls);
    let shape = (!random.chance(30)).then(|| *random.pick(&SHAPES));
    let lists = Lists { random, style, dims, d: bound, shape, faces: vec![], intervals: vec![] };
    (lists, length, count)
}

impl Lists {
    fn shape(&mut self) -> Shape {
        self.shape.unwrap_or(*self.random.pick(&SHAPES))
    }
    fn new_formula(&mut self, sort: Sort) -> Tree {
        let shape = self.shape();
        let nodes = self.random.size(self.style.most_nodes);
        match sort {
            Sort::Face => face(&mut self.random, shape, nodes, &self.dims),
            Sort::Interval => interval(&mut self.random, shape, nodes, &self.dims),
        }
    }
    fn pool(&mut self, sort: Sort) -> &mut Vec<Tree> {
        match sort {
            Sort::Face => &mut self.faces,
            Sort::Interval => &mut self.intervals,
        }
    }
    fn known(&mut self, sort: Sort) -> Tree {
        let count = self.pool(sort).len();
        let i = self.random.below(count);
        self.pool(sort)[i].clone()
    }
    /// A new formula, a known one, a part of one, or one made of two.
    fn formula(&mut self, sort: Sort) -> Tree {
        let choice = if self.pool(sort).is_empty() { 100 } else { self.random.below(100) };
        let made = match choice {
            0..40 => return self.known(sort),
            40..55 => part(self.known(sort), &mut self.random),
            55..70 => self.two(sort),
            _ => self.new_formula(sort),
        };
        self.pool(sort).push(made.clone());
        made
    }
    fn two(&mut self, sort: Sort) -> Tree {
        let (a, b) = (self.known(sort), self.known(sort));
        if a.nodes() + b.nodes() >= self.style.most_nodes {
            return a;
        }
        let kinds = if sort == Sort::Face { [AND, OR] } else { [MEET, JOIN] };
        pair(*self.random.pick(&kinds), a, b)
    }
    /// Mostly high enough, sometimes not.
    fn d(&mut self) -> usize {
        match self.random.below(100) {
            0..80 => (self.d + self.random.below(2)).min(255),
            80..95 => self.random.below(self.d + 1),
            _ => self.random.below(256),
        }
    }
    fn k(&mut self) -> usize {
        match self.random.below(100) {
            0..70 if !self.dims.is_empty() => usize::from(*self.random.pick(&self.dims)),
            0..95 => self.random.below(self.d + 1).min(254),
            _ => self.random.below(255),
        }
    }
    fn call(&mut self) -> Call {
        let name = match self.random.below(100) {
            0..34 => Name::Entails,
            34..44 => Name::Endpoint,
            _ => CALLS[self.random.below(CALLS.len())].name,
        };
        let call = match name {
            Name::Entails => self.entails(),
            Name::Endpoint => self.endpoint(),
            _ => self.plain(name),
        };
        if self.random.chance(self.style.broken) {
            return broken(call, &mut self.random);
        }
        self.remember(&call);
        call
    }
    /// The results of a call are formulas for later calls.
    fn remember(&mut self, call: &Call) {
        let Ok(seen) = door::admit(call) else { return };
        for out in seen.results {
            self.d = self.d.max(out.bound());
            self.pool(out.sort()).push(out);
        }
    }
    fn plain(&mut self, name: Name) -> Call {
        let signature = name.signature();
        let operands: Vec<_> = signature.sorts.iter().map(|s| self.formula(*s)).collect();
        let number = match signature.number {
            crate::call::Number::None => 0,
            crate::call::Number::D => self.d(),
            crate::call::Number::K => self.k(),
        };
        Call::new(name, number, &operands.iter().collect::<Vec<_>>())
    }
    /// Whether the Rust's search ends soon.
    fn short(&self, a: &Tree, b: &Tree) -> bool {
        cost::search(a, b, self.style.most_covers).0.is_some()
    }
    fn entails(&mut self) -> Call {
        let d = self.d();
        for _ in 0..8 {
            let (a, b) = self.implication();
            let small = a.nodes().max(b.nodes()) <= self.style.most_nodes;
            if small && self.short(&a, &b) {
                return Call::new(Name::Entails, d, &[&a, &b]);
            }
        }
        self.plain(Name::Face)
    }
    fn claim(&mut self) -> (usize, Tree, Tree) {
        let d = self.d();
        let (a, b) = self.implication();
        (d, a, b)
    }
    fn implication(&mut self) -> (Tree, Tree) {
        let a = self.formula(Sort::Face);
        match self.random.below(100) {
            0..30 => (a, self.formula(Sort::Face)),
            30..35 => (a.clone(), a),
            35..60 => {
                let b = self.weaker(&a);
                (a, b)
            }
            60..80 => {
                let other = self.formula(Sort::Face);
                (pair(AND, other, a.clone()), a)
            }
            // Nearly true: one leaf of the goal is another.
            _ => {
                let mut b = self.weaker(&a);
                let leaf = self.new_leaf();
                *some_leaf(&mut b, &mut self.random) = leaf;
                (a, b)
            }
        }
    }
    fn new_leaf(&mut self) -> Tree {
        face(&mut self.random, Shape::Balanced, 1, &self.dims)
    }
    /// A face that follows from a.
    fn weaker(&mut self, a: &Tree) -> Tree {
        if a.parts.is_empty() || self.random.chance(20) {
            return self.beside(a.clone());
        }
        let (left, right) = (self.weaker(&a.parts[0]), self.weaker(&a.parts[1]));
        match (a.kind, self.random.below(10)) {
            (AND, 0) => left,
            (AND, 1) => right,
            (kind, 2..6) => pair(kind, right, left),
            (kind, _) => pair(kind, left, right),
        }
    }
    /// The face, sometimes with an alternative.
    fn beside(&mut self, a: Tree) -> Tree {
        match self.random.below(10) {
            0 => pair(OR, self.new_leaf(), a),
            1 => pair(OR, a, self.new_leaf()),
            2 => leaf(FT),
            _ => a,
        }
    }
    fn endpoint(&mut self) -> Call {
        let (d, one) = (self.d(), self.random.chance(50));
        for _ in 0..8 {
            let r = self.formula(Sort::Interval);
            let (zero, end) = operations::boundary(&r);
            let goal = if one { end } else { zero };
            let phi = if self.random.chance(60) { self.formula(Sort::Face) } else { goal.clone() };
            if self.short(&phi, &goal) {
                return Call::endpoint(d, &phi, &r, one);
            }
        }
        self.plain(Name::Interval)
    }
}

/// A part of a formula, from near its root or far from it.
fn part(mut t: Tree, random: &mut Random) -> Tree {
    while !t.parts.is_empty() && random.chance(70) {
        let i = random.below(t.parts.len());
        t = t.parts.swap_remove(i);
    }
    t
}

fn some_leaf<'a>(t: &'a mut Tree, random: &mut Random) -> &'a mut Tree {
    if t.parts.is_empty() {
        return t;
    }
    let i = random.below(t.parts.len());
    some_leaf(&mut t.parts[i], random)
}

/// A long operand of the same sort: one node more than the limit, if it can be.
fn too_long(sort: Sort) -> Vec<u8> {
    let (node, tip) = if sort == Sort::Face { (AND, FT) } else { (MEET, I1) };
    [vec![node; 256], vec![tip; 257]].concat()
}

/// The call with one thing that the door refuses, or barely takes.
fn broken(mut call: Call, random: &mut Random) -> Call {
    let sorts = call.name.signature().sorts;
    let i = random.below(sorts.len());
    let operand = &mut call.operands[i];
    match random.below(11) {
        0 => {
            operand.pop();
        }
        1 => operand.push(FT),
        2 => operand.clear(),
        3 => *operand = if sorts[i] == Sort::Face { vec![I0] } else { vec![FF] },
        4 => *operand = too_long(sorts[i]),
        5 => *operand = if sorts[i] == Sort::Face { vec![AT1, 255] } else { vec![DIM, 255] },
        6 => call.number = 255 + random.below(2),
        _ => shorten(&mut call, random),
    }
    call
}

/// An output slice that is just long enough, or one byte short.
fn shorten(call: &mut Call, random: &mut Random) {
    let Ok(seen) = door::admit(call) else { return };
    if let Some(room) = call.rooms.last_mut() {
        *room = seen.results.last().unwrap().bytes().len() - random.below(2);
    }
}

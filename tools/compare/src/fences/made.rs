//! Random formulas about the producer's limits, in every shape, and damaged bytes.
use crate::fences::parts::{Turn, down, grafted, kinds, leaves, literals, turns, way_down, ways, with_leaf};
use crate::lists::spoil_operand;
use judge::formula::{Sort, Tree, pair};
use judge::ledger::MOST_NODES;
use judge::random::{Random, SHAPES, Shape, face, grown, interval};

/// Beyond this depth nothing but leaves is beside a way, so that most formulas keep to the most nodes.
const BUSHY: usize = 35;

/// Mostly about the limit.
fn depth(random: &mut Random) -> usize {
    match random.below(20) {
        0 => random.between(0, 30),
        1 => random.between(35, 60),
        2 => random.between(61, 255),
        _ => random.between(31, 34),
    }
}

/// Mostly within the limit, so that depths count.
fn dimensions(random: &mut Random) -> Vec<u8> {
    match random.below(12) {
        0 => vec![],
        1 => vec![31, 32, 33, 34],
        2 => (0..=254).collect(),
        3..6 => vec![31, 32],
        6..8 => vec![0, 1, 2],
        _ => (0..=32).collect(),
    }
}

/// A formula of at most so many nodes.
fn shaped(random: &mut Random, sort: Sort, shape: Shape, nodes: usize, dims: &[u8]) -> Tree {
    match sort {
        Sort::Face => face(random, shape, nodes, dims),
        Sort::Interval => interval(random, shape, nodes, dims),
    }
}

/// Makes formulas of one sort over some dimensions.
struct Maker<'a> {
    random: &'a mut Random,
    sort: Sort,
    dims: Vec<u8>,
    /// How many nodes come above what is made.
    above: usize,
}

impl Maker<'_> {
    fn kind(&mut self) -> u8 {
        *self.random.pick(&kinds(self.sort))
    }
    fn leaf(&mut self) -> Tree {
        shaped(self.random, self.sort, Shape::Balanced, 1, &self.dims)
    }
    fn any(&mut self, nodes: usize) -> Tree {
        let shape = *self.random.pick(&SHAPES);
        shaped(self.random, self.sort, shape, nodes, &self.dims)
    }
    /// Without neg, so that it has just as many levels as it must.
    fn balanced(&mut self, leaves: usize) -> Tree {
        let (sort, dims) = (self.sort, &self.dims);
        let mut tip = |r: &mut Random| shaped(r, sort, Shape::Balanced, 1, dims);
        grown(Shape::Balanced, leaves, self.random, &mut |r| *r.pick(&kinds(sort)), &mut tip)
    }
    /// So many turns, of one way or by chance.
    fn turns(&mut self, count: usize) -> Vec<Turn> {
        let all = ways(self.sort);
        if self.random.chance(70) {
            let way = *self.random.pick(&all);
            return turns(way, count);
        }
        (0..count).map(|_| self.random.pick(&all)[0]).collect()
    }
    /// A way to this depth, a leaf beside each node: the same everywhere or any.
    fn lone(&mut self, depth: usize) -> Tree {
        let (turns, tip) = (self.turns(depth), self.leaf());
        if self.random.chance(20) {
            let beside = self.leaf();
            return way_down(self.sort, &turns, tip, &beside);
        }
        down(&turns, tip, &mut |_| (self.kind(), self.leaf()))
    }
    /// A way to this depth, bushes beside it that go no deeper.
    fn bushy(&mut self, depth: usize) -> Tree {
        if depth > BUSHY {
            return self.lone(depth);
        }
        let (turns, tip) = (self.turns(depth), self.leaf());
        let most = *self.random.pick(&[2, 3, 7]);
        down(&turns, tip, &mut |at| {
            let levels = (depth - at - 1).min(3);
            let leaves = self.random.between(1, most.min(1 << levels));
            (self.kind(), self.balanced(leaves))
        })
    }
    /// A way that ends in a bush which reaches this depth.
    fn tipped(&mut self, depth: usize) -> Tree {
        let levels = self.random.between(1, 6).min(depth);
        let leaves = self.random.between((1 << levels) / 2 + 1, 1 << levels);
        let (turns, tip) = (self.turns(depth - levels), self.balanced(leaves));
        down(&turns, tip, &mut |_| (self.kind(), self.leaf()))
    }
    /// Several ways below a top of any shape, within the limit but for one: the first, the last, any or none.
    fn branches(&mut self) -> Tree {
        let nodes = 2 * self.random.between(2, 7) - 1;
        let top = self.any(nodes);
        let count = leaves(&top);
        let any = self.random.below(count);
        let deep = *self.random.pick(&[0, count - 1, any, count]);
        let mut next = 0;
        grafted(top, 0, &mut |_, at| {
            let depth = if next == deep { self.random.between(33, 34) } else { self.random.between(29, 32) };
            next += 1;
            self.lone(depth - self.above - at)
        })
    }
    /// The formula below one node more, and beside it so much that the whole has about the most nodes.
    fn filled(&mut self, t: Tree) -> Tree {
        let most = *self.random.pick(&[MOST_NODES, MOST_NODES, MOST_NODES, MOST_NODES - 2, MOST_NODES + 2]);
        let Some(spare) = (most - 1).checked_sub(t.nodes()).filter(|spare| *spare > 0) else { return t };
        let (kind, other) = (self.kind(), self.balanced(spare.div_ceil(2)));
        if self.random.chance(50) { pair(kind, t, other) } else { pair(kind, other, t) }
    }
    fn formula(&mut self, depth: usize) -> Tree {
        let depth = depth.saturating_sub(self.above);
        match self.random.below(10) {
            0..3 => self.lone(depth),
            3..5 => self.bushy(depth),
            5 => self.tipped(depth),
            6..9 => self.branches(),
            _ => {
                let nodes = self.random.size(MOST_NODES);
                self.any(nodes)
            }
        }
    }
    /// A dimension about the limit, or a large one, in one place.
    fn marked(&mut self, t: Tree) -> Tree {
        let n = *self.random.pick(&[31, 32, 32, 33, 33, 34, 254, 255]);
        let other = self.random.pick(&literals(self.sort, n)).clone();
        let (first, last, any) = (0, leaves(&t) - 1, self.random.below(leaves(&t)));
        with_leaf(t, *self.random.pick(&[first, last, any, any]), &other)
    }
}

pub fn formula(random: &mut Random, sort: Sort) -> Tree {
    let (depth, dims) = (depth(random), dimensions(random));
    let (filled, marked) = (random.chance(20), random.chance(30));
    let mut maker = Maker { random, sort, dims, above: usize::from(filled) };
    let mut t = maker.formula(depth);
    if filled {
        t = maker.filled(t);
    }
    if marked { maker.marked(t) } else { t }
}

pub fn damaged(random: &mut Random, sort: Sort) -> Vec<u8> {
    let mut bytes = formula(random, sort).bytes();
    spoil_operand(&mut bytes, random);
    bytes
}

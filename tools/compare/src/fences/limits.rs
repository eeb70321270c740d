//! Operands made by hand: each limit with the values next to it, in every shape and place; which question comes first; bytes that
//! are no formula, and formulas far too large.
use crate::fences::parts::{
    SORTS, Turn, constant, down, grafted, kinds, leaves, literal, literals, turns, way_down, ways, with_leaf,
};
use crate::listings::made::fixed_operands;
use judge::fixed::limit;
use judge::formula::{AT0, DIM, NEG, Sort, Tree, not};
use judge::random::{Random, Shape, grown};

/// An operand and the sort that it is asked as.
pub type Operand = (Sort, Vec<u8>);

const DEEP: [Shape; 3] = [Shape::LeftDeep, Shape::RightDeep, Shape::Balanced];
const INDICES: [u8; 6] = [31, 32, 33, 34, 254, 255];
/// The most leaves of a formula without neg: 511 nodes.
const LEAVES: usize = 256;

/// Bytes that formulas of the sort have, or just not.
pub fn nearly(sort: Sort) -> &'static [u8] {
    match sort {
        Sort::Face => &[0, 1, 2, 3, 4, 5, 6, 16, 18, 32, 33, 254, 255],
        Sort::Interval => &[0, 2, 15, 16, 17, 18, 19, 20, 21, 22, 32, 33, 254, 255],
    }
}

/// Each of these with each of those.
fn crossed<A: Copy, B>(these: impl IntoIterator<Item = A>, those: impl IntoIterator<Item = B> + Clone) -> Vec<(A, B)> {
    these.into_iter().flat_map(|a| those.clone().into_iter().map(move |b| (a, b))).collect()
}

/// The same leaf so many times.
fn same(sort: Sort, shape: Shape, leaves: usize, tip: &Tree) -> Tree {
    grown(shape, leaves, &mut Random::new(0), &mut |_| kinds(sort)[0], &mut |_| tip.clone())
}

/// A constant and dimensions about the limits.
fn tips(sort: Sort) -> Vec<Tree> {
    [0].iter().chain(&INDICES).map(|n| literal(sort, *n)).chain([constant(sort)]).collect()
}

/// Every way to every depth about the limit, and to some others, with every tip.
fn depths(sort: Sort) -> Vec<Tree> {
    let mut found = vec![];
    // The others are those at which a depth kept in a byte is low again.
    for (way, depth) in crossed(ways(sort), (0..=36).chain(254..=257).chain(286..=290).chain([510])) {
        for beside in [constant(sort), literal(sort, 32)] {
            found.extend(tips(sort).into_iter().map(|tip| way_down(sort, &turns(way, depth), tip, &beside)));
        }
    }
    found
}

/// Every way to about the limit, beside each node as many balanced leaves as go no deeper, up to four.
fn bushes(sort: Sort) -> Vec<Tree> {
    let mut found = vec![];
    for (way, depth) in crossed(ways(sort), 30..=35) {
        let bush = |at: usize| same(sort, Shape::Balanced, 4.min(1 << (depth - at - 1)), &literal(sort, 32));
        let tip = literal(sort, 0);
        found.push(down(&turns(way, depth), tip, &mut |at| (kinds(sort)[at % 2], bush(at))));
    }
    found
}

/// Every way to the limit, and from each of its nodes with two parts another one, to the limit and just beyond.
fn side_ways(sort: Sort) -> Vec<Tree> {
    let tip = constant(sort);
    let mut found = vec![];
    for (way, turned) in crossed(ways(sort), 0..32) {
        if way[turned % way.len()] == Turn::Neg {
            continue;
        }
        for depth in [32, 33] {
            let side = way_down(sort, &turns(way, depth - turned - 1), tip.clone(), &tip);
            let mut beside = |at: usize| (kinds(sort)[0], if at == turned { side.clone() } else { tip.clone() });
            found.push(down(&turns(way, 32), tip.clone(), &mut beside));
        }
    }
    found
}

/// Two to seven ways below a top of each shape, all to the limit, and each in turn just beyond.
fn branches(sort: Sort) -> Vec<Tree> {
    let tip = constant(sort);
    let mut found = vec![];
    for (shape, count) in crossed(DEEP, 2..=7) {
        for (way, deep) in crossed(ways(sort), 0..=count) {
            let mut next = 0;
            found.push(grafted(same(sort, shape, count, &tip), 0, &mut |_, at| {
                next += 1;
                let depth = if next - 1 == deep { 33 } else { 32 };
                way_down(sort, &turns(way, depth - at), tip.clone(), &tip)
            }));
        }
    }
    found
}

/// Balanced ones below neg, and neg above each of their leaves.
fn negated() -> Vec<Tree> {
    let (sort, tip) = (Sort::Interval, literal(Sort::Interval, 32));
    let chain = |count: usize, t: Tree| way_down(sort, &turns(&[Turn::Neg], count), t, &tip);
    let mut found = vec![];
    for levels in 0..=7 {
        let balanced = same(sort, Shape::Balanced, 1 << levels, &tip);
        for count in (30..=35).map(|depth| depth - levels) {
            found.push(chain(count, balanced.clone()));
            found.push(grafted(balanced.clone(), 0, &mut |leaf, _| chain(count, leaf)));
        }
    }
    found
}

/// Formulas in which each place is tried: every way to the limit, small ones, and one of the most nodes.
fn hosts(sort: Sort) -> Vec<Tree> {
    let tip = literal(sort, 0);
    let spines = ways(sort).into_iter().map(|way| way_down(sort, &turns(way, 32), tip.clone(), &tip));
    let small = crossed(DEEP, 1..=5).into_iter().map(|(shape, count)| same(sort, shape, count, &constant(sort)));
    spines.chain(small).chain([same(sort, Shape::Balanced, LEAVES, &tip)]).collect()
}

/// Each dimension about the limits at each place.
fn places(sort: Sort) -> Vec<Tree> {
    let marks: Vec<_> = INDICES.iter().flat_map(|n| literals(sort, *n)).collect();
    let mut found = vec![];
    for host in hosts(sort) {
        for place in 0..leaves(&host) {
            found.extend(marks.iter().map(|mark| with_leaf(host.clone(), place, mark)));
        }
    }
    found
}

/// About the most nodes, balanced and far too deep, with dimensions about the limits at the end.
fn most_nodes(sort: Sort) -> Vec<Tree> {
    let mut found = vec![];
    for (shape, count) in crossed(DEEP, LEAVES - 1..=LEAVES + 1) {
        let whole = limit(sort, shape, count, 33);
        for t in tips(sort).into_iter().map(|tip| with_leaf(whole.clone(), count - 1, &tip)) {
            if sort == Sort::Interval {
                found.extend([not(t.clone()), not(not(t.clone()))]);
            }
            found.push(t);
        }
    }
    found
}

/// Formulas that break one question or several, none of them 2.
fn breaking(sort: Sort) -> Vec<Tree> {
    let mut found = vec![];
    for n in [0, 33, 254, 255] {
        let tip = literal(sort, n);
        let ways = [vec![], turns(&[Turn::Left], 33), turns(&[Turn::Right], 33)];
        found.extend(ways.map(|turns| way_down(sort, &turns, tip.clone(), &constant(sort))));
        found.extend(DEEP.map(|shape| same(sort, shape, LEAVES + 1, &tip)));
    }
    found
}

/// Bytes that are not exactly one formula of the sort, made from such formulas: cut, lengthened, changed, of the other sort.
fn no_formulas(sort: Sort) -> Vec<Operand> {
    let other = SORTS[usize::from(sort == SORTS[0])];
    let mut found = vec![(sort, vec![])];
    for whole in breaking(sort).iter().map(Tree::bytes) {
        let length = whole.len();
        found.extend([0, length / 2, length - 1].map(|n| (sort, whole[..n].to_vec())));
        found.extend([0, 255, 16, whole[0]].map(|byte| (sort, [&whole[..], &[byte]].concat())));
        found.push((sort, [&whole[..], &whole].concat()));
        for (place, byte) in crossed([0, length - 1], [6, 15, 22, 255]) {
            let mut changed = whole.clone();
            changed[place] = byte;
            found.push((sort, changed));
        }
        found.push((other, whole));
    }
    found
}

/// Left-deep, right-deep and, of intervals, chains of neg with so many nodes or a few less; whole, cut and lengthened.
fn far_too_large(sort: Sort, nodes: usize) -> Vec<Operand> {
    let (kind, head) = (kinds(sort)[0], if sort == Sort::Face { AT0 } else { DIM });
    let mut found = vec![];
    for n in [0, 33, 255] {
        let (count, tip) = (nodes / 2, [head, n]);
        let node = [&[kind][..], &tip].concat();
        let mut wholes = vec![
            [vec![kind; count - 1], tip.repeat(count)].concat(),
            [node.repeat(count - 1), tip.to_vec()].concat(),
            same(sort, Shape::Balanced, count, &literal(sort, n)).bytes(),
        ];
        if sort == Sort::Interval {
            wholes.push([&vec![NEG; nodes - 1][..], &tip].concat());
        }
        for whole in wholes {
            let length = whole.len();
            found.push((sort, whole[..length - 1].to_vec()));
            found.push((sort, [&whole[..], &[kind]].concat()));
            found.push((sort, whole));
        }
    }
    found.push((sort, vec![kind; nodes]));
    found
}

/// All operands made by hand but for the largest.
pub fn operands() -> Vec<Operand> {
    let mut found = vec![];
    for sort in SORTS {
        let trees = [depths, bushes, side_ways, branches, places, most_nodes, breaking].map(|make| make(sort)).concat();
        found.extend(trees.iter().map(|t| (sort, t.bytes())));
        found.extend(fixed_operands().into_iter().map(|bytes| (sort, bytes)));
        found.extend(no_formulas(sort));
    }
    found.extend(negated().iter().map(|t| (Sort::Interval, t.bytes())));
    found
}

/// What the stack is measured on: every way to the limit, the most nodes in every shape, and far more.
pub fn measured() -> Vec<Operand> {
    let of = |sort: Sort| {
        let shapes = DEEP.map(|shape| limit(sort, shape, LEAVES, 33));
        let formulas: Vec<_> = hosts(sort).iter().chain(&shapes).map(|t| (sort, t.bytes())).collect();
        [formulas, far_too_large(sort, 100_000)].concat()
    };
    SORTS.into_iter().flat_map(of).collect()
}

/// Operands of 100,000 and of a million nodes.
pub fn largest() -> Vec<Operand> {
    SORTS.iter().flat_map(|sort| [100_000, 1_000_000].map(|nodes| far_too_large(*sort, nodes))).flatten().collect()
}

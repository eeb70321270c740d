//! Faces made by hand: document 01's examples, each limit with the values next to it, every order; and bytes that are not let in.
use crate::normal::parts::{LEAVES, both, choices, conjunction, either, nested, one, sides, sum, zero, zeros};
use judge::formula::{AND, FF, FT, OR, Tree, leaf};
use judge::random::Shape;
use std::iter::repeat_n;

const DEEP: [Shape; 3] = [Shape::LeftDeep, Shape::RightDeep, Shape::Balanced];

fn ff() -> Tree {
    leaf(FF)
}

fn ft() -> Tree {
    leaf(FT)
}

/// So many literals that are all different: zero sides, then one sides.
fn literals(count: usize) -> Vec<Tree> {
    (0..count).map(|i| if i < 255 { zero(i) } else { one(i - 255) }).collect()
}

/// Document 01's examples, the leaves, and small faces that tell the orders apart.
fn examples() -> Vec<Tree> {
    let (a, b, c) = (zero(0), zero(1), zero(2));
    let (a1, b1) = (one(0), one(1));
    vec![
        both(a.clone(), a1.clone()),
        either(a.clone(), a1.clone()),
        either(a1.clone(), both(a1.clone(), b.clone())),
        ff(),
        ft(),
        zero(254),
        one(254),
        sum(&[one(2), zero(2), one(0), zero(254), zero(0)]),
        conjunction(&[one(2), zero(1), one(0), zero(254)]),
        sum(&[b.clone(), both(a.clone(), c.clone()), both(a.clone(), b1.clone()), both(a.clone(), a1)]),
        sum(&[both(a.clone(), b.clone()), both(a.clone(), b1), a.clone(), b.clone()]),
        either(both(c, b), a),
    ]
}

/// 255, 256 and 257 leaves of one kind in every shape.
fn shapes() -> Vec<Tree> {
    let mut found = vec![];
    for count in [LEAVES - 1, LEAVES, LEAVES + 1] {
        let mut last_clashes = zeros(0, 255.min(count - 1));
        last_clashes.resize(count, one(254));
        let mut in_turn: Vec<_> = (0..count).map(|i| if i % 2 == 0 { zero(i / 2) } else { one(i / 2) }).collect();
        in_turn.reverse();
        for tips in [vec![ff(); count], vec![ft(); count], vec![zero(3); count], literals(count), last_clashes, in_turn]
        {
            for (shape, kind) in DEEP.into_iter().flat_map(|shape| [(shape, AND), (shape, OR)]) {
                found.push(nested(kind, shape, &tips));
            }
        }
    }
    found
}

/// Two sums with so many consistent pairs: from one list of literals, so that nearly all are absorbed, or from two.
fn product(m: usize, n: usize, clashes: usize, shared: bool) -> Tree {
    let a = zeros(0, m);
    let mut b: Vec<_> = (0..clashes).map(one).collect();
    b.extend(if shared { zeros(0, n - clashes) } else { zeros(m, n - clashes) });
    both(sum(&a), sum(&b))
}

/// Lists of 255, 256, 257, 288 and 512 clauses at a fand, and of about 256 at a for.
fn long_lists() -> Vec<Tree> {
    let mut found = vec![];
    let sizes =
        [(15, 17, 0), (16, 16, 0), (16, 17, 15), (17, 17, 0), (16, 18, 0), (16, 32, 0), (2, 129, 1), (129, 2, 1)];
    for (m, n, clashes) in sizes {
        found.extend([product(m, n, clashes, false), product(m, n, clashes, true)]);
    }
    // The products' clauses all stay, so that a for of them and literals has so many more.
    let (x, y) = (zero(200), one(201));
    found.push(either(product(15, 17, 0, false), x.clone()));
    found.push(either(product(16, 16, 0, false), x.clone()));
    found.push(sum(&[product(15, 17, 0, false), x.clone(), y.clone()]));
    found.push(either(product(15, 17, 0, false), either(x.clone(), y)));
    // 256 and 257 before pruning, after it half as many.
    let half = choices(0..7, Shape::Balanced);
    found.push(either(half.clone(), half.clone()));
    found.push(either(half.clone(), either(half, x)));
    found.push(both(choices(0..8, Shape::Balanced), choices(0..8, Shape::LeftDeep)));
    found.push(both(choices(0..8, Shape::Balanced), choices(1..9, Shape::LeftDeep)));
    found.push(choices(0..9, Shape::Balanced));
    // In every place where the outcome is dropped or absorbed.
    let under: Vec<_> = found
        .iter()
        .flat_map(|f| {
            let f = || f.clone();
            [both(f(), ff()), both(ff(), f()), either(f(), ft()), either(ft(), f()), both(f(), ft()), either(ff(), f())]
        })
        .collect();
    found.extend(under);
    found
}

/// Normal forms of 255 to 258 literals: 509 to 515 nodes.
fn long_results() -> Vec<Tree> {
    let mut found = vec![];
    for (terms, width) in [(128, 2), (64, 4), (32, 8), (16, 16), (8, 32), (4, 64), (2, 128), (85, 3), (51, 5)] {
        let mut factors = zeros(0, width - 1);
        factors.push(sum(&zeros(width - 1, terms)));
        let all = conjunction(&factors);
        let used = width - 1 + terms;
        for more in 0..4 {
            let singles = (0..more).map(|i| one(used + i));
            found.push(sum(&[all.clone()].into_iter().chain(singles).collect::<Vec<_>>()));
        }
    }
    let whole = conjunction(&zeros(0, 255));
    found.extend([whole.clone(), either(whole.clone(), one(0)), either(whole, zero(0))]);
    found
}

/// Orders, absorption and clashes behind so many lower literals, which a last fand drops: across the words of a set of bits.
fn behind_others() -> Vec<Tree> {
    let mut found = vec![];
    for count in (58..=66).chain(122..=130).chain(186..=194).chain([234, 238, 240]) {
        let lower: Vec<_> = (0..count).map(|i| if i % 2 == 0 { zero(i / 2) } else { one(i / 2) }).collect();
        let dropped = both(nested(OR, Shape::Balanced, &lower), ff());
        let (n, low) = (count.div_ceil(2), one(3));
        let tests = [
            sum(&[one(n + 1), both(zero(n), one(n + 2)), both(zero(n), zero(n + 1)), zero(n + 3)]),
            either(both(one(n), zero(n + 2)), one(n)),
            either(one(n + 2), both(low.clone(), one(n + 2))),
            both(sides(n), sum(&[zero(n), one(n + 1), low.clone()])),
            both(either(both(low.clone(), zero(n)), one(n + 1)), either(one(n), both(low, zero(n + 1)))),
        ];
        found.extend(tests.map(|test| either(dropped.clone(), test)));
    }
    found
}

/// As many clauses as can wait for the other part of their node: 17 blocks of 243, to either side; and 16 of 256.
fn waiting() -> Vec<Tree> {
    let thirds = |i: usize| {
        let sums: Vec<_> = (0..5).map(|j| sum(&zeros(15 * i + 3 * j, 3))).collect();
        conjunction(&sums)
    };
    let blocks: Vec<_> = (0..17).map(thirds).collect();
    let mut found = vec![];
    for last in [vec![ff()], vec![]] {
        for shape in DEEP {
            let behind = [&blocks[..], &last].concat();
            let before = [&last[..], &blocks].concat();
            found.extend([nested(AND, shape, &behind), nested(AND, shape, &before), nested(OR, shape, &behind)]);
        }
    }
    let same: Vec<_> = repeat_n(choices(0..8, Shape::Balanced), 16).collect();
    found.extend(DEEP.map(|shape| nested(AND, shape, &same)));
    found
}

/// 256 clauses and a few leaves beside them that leave as many, at last one that drops them.
fn long_chains() -> Vec<Tree> {
    let all = choices(200..208, Shape::Balanced);
    let mut found = vec![];
    for (kind, beside) in [(AND, zeros(0, 6)), (AND, zeros(210, 6)), (AND, vec![ft(); 6]), (OR, vec![ff(); 6])] {
        let (behind, before) = ([&[all.clone()][..], &beside].concat(), [&beside[..], &[all.clone()]].concat());
        for chain in [nested(kind, Shape::LeftDeep, &behind), nested(kind, Shape::RightDeep, &before)] {
            found.extend([both(chain.clone(), ff()), both(chain, conjunction(&zeros(200, 8)))]);
        }
    }
    found
}

/// All faces made by hand; some have more nodes or higher dimensions than are let in.
pub fn faces() -> Vec<Tree> {
    [examples(), shapes(), long_lists(), long_chains(), long_results(), behind_others(), waiting()].concat()
}

/// Operands that are no face or not let in, and which question comes first.
pub fn operands() -> Vec<Vec<u8>> {
    let chain = |tip: &[u8], count: usize| [vec![OR; count - 1], tip.repeat(count)].concat();
    let mut found = vec![
        chain(&[2, 254], 256),
        chain(&[2, 255], 256),
        chain(&[2, 255], 257),
        chain(&[1], 257),
        [chain(&[1], 257), vec![0]].concat(),
        chain(&[16], 257),
        chain(&[1], 100_000),
        [chain(&[1], 100_000), vec![9]].concat(),
        chain(&[3, 255], 100_000),
        vec![AND; 100_000],
        [vec![OR; 300], vec![1; 300]].concat(),
        vec![19; 511],
    ];
    // 4 before 5: a dimension of 255 in a face that 5 would refuse.
    let over = product(16, 17, 0, true);
    found.push(both(over.clone(), zero(255)).bytes());
    found.push(both(over, one(254)).bytes());
    found
}

/// All strings of these bytes that have so many.
fn strings(bytes: &[u8], length: usize) -> Vec<Vec<u8>> {
    (0..length).fold(vec![vec![]], |all, _| {
        all.iter().flat_map(|s| bytes.iter().map(move |b| [&s[..], &[*b]].concat())).collect()
    })
}

/// Every string of at most two bytes, and of at most four of these.
pub fn short_strings(some: &[u8]) -> Vec<Vec<u8>> {
    let every: Vec<u8> = (0..=255).collect();
    let mut found = vec![vec![]];
    found.extend((1..=2).flat_map(|n| strings(&every, n)));
    found.extend((3..=4).flat_map(|n| strings(some, n)));
    found
}

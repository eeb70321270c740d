//! The producer's limits: 32 and 33 of dimension and depth in every shape, node counts, which refusal comes first, and the
//! stored operands beside a plain walk.
mod common;

use common::lists;
use linefeijoa::limits::{MAX_DIMENSION, MAX_NODES, MAX_PRODUCER_DEPTH, MAX_PRODUCER_DIMENSION};
use linefeijoa::{Face, Interval, Refusal, bytes};

/// A sort: the C function, and its kind bytes by what follows them.
struct Sort {
    function: fn(&[u8]) -> i64,
    constants: [u8; 2],
    literals: &'static [u8],
    /// Over one formula.
    unary: &'static [u8],
    /// Over two.
    binary: [u8; 2],
}

const SORTS: [Sort; 2] = [
    Sort { function: bytes::fence_face, constants: [0, 1], literals: &[2, 3], unary: &[], binary: [4, 5] },
    Sort { function: bytes::fence_interval, constants: [16, 17], literals: &[18], unary: &[19], binary: [20, 21] },
];

impl Sort {
    /// The node count, or the refusal's number.
    fn fence(&self, formula: &[u8]) -> Result<usize, u8> {
        bytes::count_of((self.function)(formula)).map(|nodes| nodes as usize).map_err(Refusal::number)
    }

    /// The node count, the largest dimension and the depth of the formula in front, and what follows it.
    fn walk<'a>(&self, formula: &'a [u8]) -> Option<(usize, u8, usize, &'a [u8])> {
        let (kind, rest) = formula.split_first()?;
        if self.constants.contains(kind) {
            return Some((1, 0, 0, rest));
        }
        if self.literals.contains(kind) {
            let (dimension, rest) = rest.split_first()?;
            return Some((1, *dimension, 0, rest));
        }
        let (nodes, dimension, depth, rest) = self.walk(rest)?;
        if self.unary.contains(kind) {
            return Some((1 + nodes, dimension, 1 + depth, rest));
        }
        let (more, other, beside, rest) = self.binary.contains(kind).then(|| self.walk(rest))??;
        Some((1 + nodes + more, dimension.max(other), 1 + depth.max(beside), rest))
    }

    /// What the fence should say.
    fn expected(&self, formula: &[u8]) -> Result<usize, u8> {
        match self.walk(formula) {
            None => Err(2),
            Some((.., rest)) if !rest.is_empty() => Err(2),
            Some((nodes, ..)) if nodes > MAX_NODES => Err(3),
            Some((_, dimension, ..)) if dimension > MAX_DIMENSION => Err(4),
            Some((_, dimension, depth, _)) if dimension > MAX_PRODUCER_DIMENSION || depth > MAX_PRODUCER_DEPTH => {
                Err(13)
            }
            Some((nodes, ..)) => Ok(nodes),
        }
    }

    /// All leaves of a dimension, and the constants.
    fn leaves(&self, dimension: u8) -> Vec<Vec<u8>> {
        let constants = self.constants.iter().map(|kind| vec![*kind]);
        constants.chain(self.literals.iter().map(|kind| vec![*kind, dimension])).collect()
    }

    /// A constant so many nodes over two below the root, each beside another constant: the way goes left or right.
    fn path(&self, node: u8, depth: usize, left: impl Fn(usize) -> bool) -> Vec<u8> {
        let constant = self.constants[1];
        let around = |inner: Vec<u8>, level| {
            if left(level) {
                [vec![node], inner, vec![constant]].concat()
            } else {
                [&[node, constant], &inner[..]].concat()
            }
        };
        (0..depth).rev().fold(vec![constant], around)
    }

    /// A tree that is equally deep everywhere, of one literal.
    fn even(&self, node: u8, depth: usize, dimension: u8) -> Vec<u8> {
        (0..depth).fold(vec![self.literals[0], dimension], |part, _| [&[node], &part[..], &part].concat())
    }
}

#[test]
fn leaves() {
    for sort in SORTS {
        for constant in sort.constants {
            assert_eq!(sort.fence(&[constant]), Ok(1));
        }
        for kind in sort.literals {
            for dimension in 0..=255 {
                let expected = match dimension {
                    0..=32 => Ok(1),
                    33..=254 => Err(13),
                    255 => Err(4),
                };
                assert_eq!(sort.fence(&[*kind, dimension]), expected, "{kind} {dimension}");
            }
        }
    }
}

/// One leaf of a dimension among eight others, at each of their places.
#[test]
fn dimensions_in_every_place() {
    for sort in SORTS {
        for node in sort.binary {
            let whole = sort.even(node, 3, 32);
            assert_eq!(sort.fence(&whole), Ok(15));
            let places: Vec<_> = (0..whole.len()).filter(|at| whole[*at] == 32).collect();
            assert_eq!(places.len(), 8);
            for at in places {
                for (dimension, expected) in [(0, Ok(15)), (33, Err(13)), (254, Err(13)), (255, Err(4))] {
                    let mut formula = whole.clone();
                    formula[at] = dimension;
                    assert_eq!(sort.fence(&formula), expected, "{dimension} at {at}");
                }
            }
        }
    }
}

/// Left-deep, right-deep, both in turn, and all ways that turn once.
#[test]
fn depths_of_every_way() {
    for sort in SORTS {
        for node in sort.binary {
            for turn in 0..=33 {
                for first in [false, true] {
                    let fence = |depth| sort.fence(&sort.path(node, depth, |level| (level < turn) == first));
                    assert_eq!((fence(32), fence(33)), (Ok(65), Err(13)), "{node}, turn at {turn}");
                }
            }
            for parity in 0..2 {
                let fence = |depth| sort.fence(&sort.path(node, depth, |level| level % 2 == parity));
                assert_eq!((fence(0), fence(1), fence(31)), (Ok(1), Ok(3), Ok(63)));
                assert_eq!((fence(32), fence(33), fence(34), fence(255)), (Ok(65), Err(13), Err(13), Err(13)));
            }
        }
    }
}

/// `neg` alone, and one at each depth above and below nodes over two.
#[test]
fn depths_of_neg() {
    let interval = &SORTS[1];
    let negs = |count: usize, leaf: &[u8]| [&vec![19; count], leaf].concat();
    for leaf in interval.leaves(32) {
        assert_eq!(interval.fence(&negs(32, &leaf)), Ok(33));
        assert_eq!(interval.fence(&negs(33, &leaf)), Err(13));
        assert_eq!(interval.fence(&negs(510, &leaf)), Err(13));
        assert_eq!(interval.fence(&negs(511, &leaf)), Err(3));
    }
    for node in interval.binary {
        for above in 0..=32 {
            let below = |depth: usize| negs(above, &interval.path(node, depth - above, |level| level % 2 == 0));
            assert_eq!(interval.fence(&below(32)), Ok(33 + 32 - above));
            assert_eq!(interval.fence(&below(33)), Err(13));
        }
        // The deep part first or last, and both within the limit.
        let (deep, deeper) = (negs(31, &[16]), negs(32, &[16]));
        assert_eq!(interval.fence(&[&[node], &deep[..], &deep].concat()), Ok(65));
        assert_eq!(interval.fence(&[&[node], &deeper[..], &[16]].concat()), Err(13));
        assert_eq!(interval.fence(&[&[node, 16], &deeper[..]].concat()), Err(13));
    }
}

/// Up to as many nodes as a formula may have, within the producer's depth, and more.
#[test]
fn node_counts() {
    for sort in SORTS {
        for node in sort.binary {
            for depth in 0..=8 {
                assert_eq!(sort.fence(&sort.even(node, depth, 32)), Ok((2 << depth) - 1));
            }
            assert_eq!(sort.fence(&sort.even(node, 9, 32)), Err(3));
            // Two nodes more, and where there are nodes over one formula, one more.
            let full = sort.even(node, 8, 0);
            assert_eq!(sort.fence(&[&[node, sort.constants[0]], &full[..]].concat()), Err(3));
            for unary in sort.unary {
                assert_eq!(sort.fence(&[&[*unary], &full[..]].concat()), Err(3));
            }
        }
    }
    assert_eq!(SORTS[1].fence(&[&[19], &SORTS[1].even(20, 7, 0)[..]].concat()), Ok(256));
}

/// Each formula breaks the limit of its refusal and those of all later ones.
#[test]
fn the_first_refusal() {
    for sort in SORTS {
        for node in sort.binary {
            let (wide, deep) = (vec![node; 256], vec![node; 255]);
            let high = [sort.literals[0], 255];
            let row = |nodes: &[u8], leaf: &[u8]| [nodes, &leaf.repeat(nodes.len() + 1)].concat();
            assert_eq!(sort.fence(&row(&wide, &high)[..wide.len() + 513]), Err(2));
            assert_eq!(sort.fence(&[row(&wide, &high), vec![sort.constants[0]]].concat()), Err(2));
            assert_eq!(sort.fence(&row(&wide, &high)), Err(3));
            assert_eq!(sort.fence(&row(&deep, &high)), Err(4));
            assert_eq!(sort.fence(&row(&deep, &[sort.literals[0], 254])), Err(13));
            assert_eq!(sort.fence(&row(&deep, &sort.constants[..1])), Err(13));
            assert_eq!(sort.fence(&row(&deep[..32], &sort.constants[..1])), Ok(65));
            // A dimension or a depth alone is enough, whichever stands first.
            let (far, low) = (sort.even(node, 1, 33), sort.path(node, 32, |_| false));
            assert_eq!(sort.fence(&[&[node], &far[..], &far].concat()), Err(13));
            assert_eq!(sort.fence(&[&[node], &low[..], &far].concat()), Err(13));
            assert_eq!(sort.fence(&[&[node], &far[..], &low].concat()), Err(13));
            assert_eq!(sort.fence(&[&[node], &low[..], &high].concat()), Err(4));
        }
        assert_eq!(sort.fence(&[]), Err(2));
    }
    // The other sort is none of this one, also as a part.
    assert_eq!((SORTS[0].fence(&[16]), SORTS[1].fence(&[1])), (Err(2), Err(2)));
    assert_eq!((SORTS[0].fence(&[4, 1, 18, 33]), SORTS[1].fence(&[19, 2, 255])), (Err(2), Err(2)));
}

/// Every operand of the stored calls to both sorts, whole, without its first byte and cut in half, beside a plain walk.
#[test]
fn stored_operands() {
    let (mut taken, mut beyond, mut refused) = (0, 0, 0);
    for (call, _) in lists("lists.txt").into_iter().chain(lists("small.txt")).flat_map(|list| list.calls) {
        for operand in &call.operands {
            for sort in &SORTS {
                for formula in [&operand[..], &operand[operand.len().min(1)..], &operand[..operand.len() / 2]] {
                    let expected = sort.expected(formula);
                    assert_eq!(sort.fence(formula), expected, "{formula:?}");
                    match expected {
                        Ok(_) => taken += 1,
                        Err(13) => beyond += 1,
                        Err(_) => refused += 1,
                    }
                }
            }
        }
    }
    println!("{taken} taken, {beyond} refused by 13, {refused} by 2, 3 or 4");
    assert!(taken > 1_000 && beyond > 50 && refused > 1_000);
}

/// The methods say what the functions do.
#[test]
fn methods() {
    let face = Face::from_bytes(SORTS[0].even(5, 4, 32)).unwrap();
    let interval = Interval::from_bytes(SORTS[1].even(21, 4, 32)).unwrap();
    assert_eq!((face.fence(), interval.fence()), (Ok(31), Ok(31)));
    assert_eq!(face.and(&Face::at0(33).unwrap()).unwrap().fence(), Err(Refusal::BeyondProducer));
    assert_eq!(interval.meet(&Interval::dim(33).unwrap()).unwrap().fence(), Err(Refusal::BeyondProducer));
    let deep = Interval::from_bytes([vec![19; 32], vec![17]].concat()).unwrap();
    assert_eq!((deep.fence(), deep.neg().unwrap().fence()), (Ok(33), Err(Refusal::BeyondProducer)));
}

//! Random faces of many kinds, and damaged bytes.
use crate::lists::spoil_operand;
use crate::normal::copied::MOST_CLAUSES;
use crate::normal::parts::{DIMENSIONS, LEAVES, both, either, joined, leaves, opposite};
use judge::formula::{AND, AT0, AT1, FF, FT, OR, Tree, at, leaf};
use judge::random::{Random, SHAPES, Shape, grown};

/// Lengths of lists about the limit, and somewhat over it.
const COUNTS: [usize; 8] = [254, 255, 256, 256, 257, 258, 288, 512];

/// Numbers with a product about the limit.
const FACTORS: [&[usize]; 8] =
    [&[3, 5, 17], &[2; 8], &[4, 4, 4, 4], &[2, 8, 16], &[2, 12, 12], &[2; 9], &[3, 3, 4, 8], &[6, 7, 6]];

fn shuffle<T>(random: &mut Random, items: &mut [T]) {
    for i in (1..items.len()).rev() {
        items.swap(i, random.below(i + 1));
    }
}

fn literal(random: &mut Random, dims: &[u8]) -> Tree {
    at(*random.pick(&[AT0, AT1]), *random.pick(dims))
}

/// Few dimensions or many, at times only high ones.
fn dimensions(random: &mut Random) -> Vec<u8> {
    let count = match random.below(6) {
        0 => random.between(1, 3),
        1 | 2 => random.between(2, 5),
        3 => random.between(5, 12),
        4 => random.between(12, 60),
        _ => DIMENSIONS,
    };
    let most = DIMENSIONS - count;
    let first = *random.pick(&[0, 0, most / 2, most]);
    (first..first + count).map(|n| n as u8).collect()
}

/// Literals of all dimensions in random order, one side each, then the other sides; again from the start when all are taken.
struct Pool {
    literals: Vec<Tree>,
    next: usize,
}

impl Pool {
    fn new(random: &mut Random) -> Self {
        let mut literals: Vec<_> = (0..DIMENSIONS).map(|n| at(*random.pick(&[AT0, AT1]), n as u8)).collect();
        shuffle(random, &mut literals);
        let others: Vec<_> = literals.iter().map(opposite).collect();
        literals.extend(others);
        Self { literals, next: 0 }
    }
    fn literal(&mut self) -> Tree {
        self.next += 1;
        self.literals[(self.next - 1) % self.literals.len()].clone()
    }
    fn literals(&mut self, count: usize) -> Vec<Tree> {
        (0..count).map(|_| self.literal()).collect()
    }
}

/// From so many parts on they are mostly balanced: in other shapes the Rust prunes long lists again and again.
const MANY: usize = 40;

/// These parts under nodes of one kind, in any order and shape.
fn mixed(random: &mut Random, kind: u8, mut parts: Vec<Tree>) -> Tree {
    shuffle(random, &mut parts);
    let balanced = parts.len() >= MANY && random.chance(90);
    let shape = if balanced { Shape::Balanced } else { *random.pick(&SHAPES) };
    joined(random, kind, shape, &parts)
}

/// Fand and for in turn, from the root down.
fn alternate(t: &mut Tree, kind: u8) {
    if t.parts.is_empty() {
        return;
    }
    t.kind = kind;
    t.parts.iter_mut().for_each(|part| alternate(part, AND + OR - kind));
}

/// Any shape, any share of fand and for, any leaves.
fn shaped(random: &mut Random) -> Tree {
    let (some, few) = (random.size(2 * LEAVES - 1), random.below(24));
    let nodes = if random.chance(5) { 2 * LEAVES - 1 } else { some.max(few).max(1) };
    let (shape, dims) = (*random.pick(&SHAPES), dimensions(random));
    let constants = *random.pick(&[0, 0, 0, 5, 5, 30, 30, 100]);
    let fands = *random.pick(&[3, 10, 30, 50, 70, 90, 97]);
    let mut kind = |r: &mut Random| if r.chance(fands) { AND } else { OR };
    let mut tip = |r: &mut Random| if r.chance(constants) { leaf(*r.pick(&[FF, FT])) } else { literal(r, &dims) };
    let mut tree = grown(shape, nodes.div_ceil(2), random, &mut kind, &mut tip);
    if random.chance(20) {
        alternate(&mut tree, *random.pick(&[AND, OR]));
    }
    tree
}

/// A clause or sum like one of those before it: the same in another order, with more, with less, or with both sides.
fn likeness(random: &mut Random, old: &[Tree], dims: &[u8]) -> Vec<Tree> {
    let mut new = old.to_vec();
    match random.below(5) {
        0 => {}
        1 | 2 => (0..random.between(1, 3)).for_each(|_| new.push(literal(random, dims))),
        3 if new.len() > 1 => drop(new.swap_remove(random.below(new.len()))),
        _ => new.push(opposite(&old[random.below(old.len())])),
    }
    shuffle(random, &mut new);
    new
}

/// Groups of literals, many of them like one another.
fn groups(random: &mut Random, most: usize, widest: usize) -> Vec<Vec<Tree>> {
    let dims = dimensions(random);
    let mut found: Vec<Vec<Tree>> = vec![];
    for _ in 0..random.size(most) {
        let group = if !found.is_empty() && random.chance(40) {
            let old = random.pick(&found).clone();
            likeness(random, &old, &dims)
        } else {
            (0..random.between(1, widest)).map(|_| literal(random, &dims)).collect()
        };
        if group.len() + found.iter().map(Vec::len).sum::<usize>() > LEAVES - 8 {
            break;
        }
        found.push(group);
    }
    found
}

/// A for of fands or a fand of fors, with constants here and there.
fn two_levels(random: &mut Random, outer: u8, groups: Vec<Vec<Tree>>) -> Tree {
    let mut spare = LEAVES - groups.iter().map(Vec::len).sum::<usize>();
    let mut constant = |random: &mut Random, parts: &mut Vec<Tree>| {
        if spare > 0 && random.chance(3) {
            spare -= 1;
            parts.push(leaf(*random.pick(&[FF, FT])));
        }
    };
    let mut parts = vec![];
    for mut group in groups {
        constant(random, &mut group);
        parts.push(mixed(random, AND + OR - outer, group));
    }
    constant(random, &mut parts);
    mixed(random, outer, parts)
}

fn for_of_fands(random: &mut Random) -> Tree {
    let widest = random.between(1, 8);
    let groups = groups(random, 120, widest);
    two_levels(random, OR, groups)
}

fn fand_of_fors(random: &mut Random) -> Tree {
    let widest = random.between(1, 6);
    let groups = groups(random, 12, widest);
    two_levels(random, AND, groups)
}

/// Two sums whose product has exactly so many consistent pairs, at times with equal and absorbed ones among them.
fn product(random: &mut Random, pool: &mut Pool, count: usize, most_leaves: usize) -> Tree {
    let sizes = (2..=count.isqrt() + 1).map(|m| (m, count.div_ceil(m)));
    let fits = |&(m, n): &(usize, usize)| m + n <= most_leaves && m * n - count <= m.min(n);
    let fitting: Vec<_> = sizes.filter(fits).collect();
    let &(m, n) = random.pick(&fitting);
    let clashes = m * n - count;
    let a = pool.literals(m);
    let mut b: Vec<_> = a[..clashes].iter().map(opposite).collect();
    if random.chance(50) {
        let shared = random.below(m.min(n - clashes) + 1);
        b.extend_from_slice(&a[..shared]);
    }
    b.extend(pool.literals(n - b.len()));
    let (a, b) = (mixed(random, OR, a), mixed(random, OR, b));
    if random.chance(50) { both(a, b) } else { both(b, a) }
}

/// Sums of as many literals as these numbers, multiplied.
fn power(random: &mut Random, pool: &mut Pool) -> Tree {
    let factors = *random.pick(&FACTORS);
    let sums = factors.iter().map(|n| mixed(random, OR, pool.literals(*n))).collect();
    mixed(random, AND, sums)
}

/// A fand whose list is about as long as can be.
fn long_product(random: &mut Random) -> Tree {
    let pool = &mut Pool::new(random);
    if random.chance(20) {
        return power(random, pool);
    }
    let count = *random.pick(&COUNTS);
    product(random, pool, count, LEAVES - 16)
}

/// A for whose list is about as long as can be: products, perhaps twice the same, and literals.
fn long_join(random: &mut Random) -> Tree {
    let pool = &mut Pool::new(random);
    let (mut left, mut spare) = (*random.pick(&COUNTS[..6]), LEAVES - 8);
    let mut parts: Vec<Tree> = vec![];
    while left > spare || left > 4 && random.chance(60) {
        let share = random.between(4, left.min(MOST_CLAUSES));
        let part = product(random, pool, share, 70.min(spare));
        let twice = left >= 2 * share && random.chance(50);
        for _ in 0..=usize::from(twice) {
            spare -= leaves(&part);
            left -= share;
            parts.push(part.clone());
        }
    }
    parts.extend(pool.literals(left));
    mixed(random, OR, parts)
}

/// A normal form of about the most literals, 256: sums times conjunctions, and single literals.
fn long_result(random: &mut Random) -> Tree {
    let pool = &mut Pool::new(random);
    let mut left = *random.pick(&[255, 256, 256, 257, 257, 258]);
    let mut parts = vec![];
    while left > 3 && random.chance(85) {
        let (terms, width) = (random.size(left.min(64)), random.size(12));
        if terms * width > left {
            continue;
        }
        let sum = pool.literals(terms);
        let mut factors = pool.literals(width - 1);
        factors.push(mixed(random, OR, sum));
        parts.push(mixed(random, AND, factors));
        left -= terms * width;
    }
    let spare = LEAVES - parts.iter().map(leaves).sum::<usize>();
    parts.extend(pool.literals(left.min(spare)));
    mixed(random, OR, parts)
}

/// Literals that are all different, up to 256 of them.
fn distinct(random: &mut Random) -> Tree {
    let pool = &mut Pool::new(random);
    pool.next = random.below(2 * DIMENSIONS);
    let fewer = random.between(60, LEAVES - 1);
    let count = *random.pick(&[LEAVES, LEAVES, LEAVES - 1, fewer]);
    let literals = pool.literals(count);
    let kind = *random.pick(&[AND, OR, OR]);
    if random.chance(40) {
        return mixed(random, kind, literals);
    }
    let size = random.size(count);
    let groups = literals.chunks(size).map(<[Tree]>::to_vec).collect();
    two_levels(random, kind, groups)
}

/// Every choice of sides for some dimensions, a few times with one or another thing beside it: long lists that stay long.
fn choices(random: &mut Random) -> Tree {
    let mut dims = dimensions(random);
    shuffle(random, &mut dims);
    dims.truncate(random.between(2, 6));
    let mut parts = vec![];
    for _ in 0..random.between(1, 4) {
        let sums = dims.iter().map(|n| mixed(random, OR, vec![at(AT0, *n), at(AT1, *n)])).collect();
        parts.push(mixed(random, AND, sums));
        if random.chance(30) {
            parts.push(literal(random, &dims));
        }
    }
    let kind = *random.pick(&[AND, OR]);
    mixed(random, kind, parts)
}

/// Something around a face that drops it, keeps it or changes it, where there is space.
fn wrapped(random: &mut Random, face: Tree) -> Tree {
    if leaves(&face) >= LEAVES {
        return face;
    }
    let beside = match random.below(4) {
        0 | 1 => leaf(*random.pick(&[FF, FT])),
        2 => literal(random, &[0, 1, 200, 254]),
        _ if 2 * leaves(&face) <= LEAVES => face.clone(),
        _ => leaf(FF),
    };
    let (a, b) = if random.chance(50) { (face, beside) } else { (beside, face) };
    if random.chance(60) { both(a, b) } else { either(a, b) }
}

type Maker = fn(&mut Random) -> Tree;

/// The kinds of faces, and how many in a thousand.
const KINDS: [(usize, Maker); 8] = [
    (520, shaped),
    (202, for_of_fands),
    (130, fand_of_fors),
    (100, choices),
    (20, long_product),
    (14, long_join),
    (11, long_result),
    (3, distinct),
];

fn maker(mut place: usize) -> Maker {
    for (share, maker) in KINDS {
        if place < share {
            return maker;
        }
        place -= share;
    }
    unreachable!("the shares are a thousand")
}

/// A random face of at most 511 nodes and dimensions up to 254.
pub fn face(random: &mut Random) -> Tree {
    let mut face = maker(random.below(1000))(random);
    while random.chance(30) {
        face = wrapped(random, face);
    }
    assert!(leaves(&face) <= LEAVES, "a face of {} leaves", leaves(&face));
    face
}

/// A dimension over 254 somewhere, if there is any.
fn raise(random: &mut Random, bytes: &mut [u8]) {
    let literals: Vec<_> = places(bytes).into_iter().filter(|i| matches!(bytes[*i], AT0 | AT1)).collect();
    if !literals.is_empty() {
        bytes[*random.pick(&literals) + 1] = 255;
    }
}

/// Where the nodes of a face's bytes start.
fn places(bytes: &[u8]) -> Vec<usize> {
    let mut found = vec![];
    let mut at = 0;
    while at < bytes.len() {
        found.push(at);
        at += if matches!(bytes[at], AT0 | AT1) { 2 } else { 1 };
    }
    found
}

/// A face of over 511 nodes, mostly of 513.
fn too_large(random: &mut Random) -> Vec<u8> {
    let count = *random.pick(&[LEAVES + 1, LEAVES + 1, LEAVES + 2, 300, 600]);
    let (shape, dims) = (*random.pick(&SHAPES), dimensions(random));
    let fands = *random.pick(&[0, 50, 100]);
    let mut kind = |r: &mut Random| if r.chance(fands) { AND } else { OR };
    grown(shape, count, random, &mut kind, &mut |r| literal(r, &dims)).bytes()
}

/// Bytes that are no face, or one that is not let in; at times only nearly so.
pub fn damaged(random: &mut Random) -> Vec<u8> {
    let mut bytes = if random.chance(30) { too_large(random) } else { face(random).bytes() };
    match random.below(10) {
        0..3 => raise(random, &mut bytes),
        3..6 => spoil_operand(&mut bytes, random),
        6 => bytes.truncate(random.below(bytes.len())),
        7 => bytes.push(random.below(256) as u8),
        8 => {
            let at = random.below(bytes.len());
            bytes[at] = random.below(256) as u8;
        }
        _ => {}
    }
    bytes
}

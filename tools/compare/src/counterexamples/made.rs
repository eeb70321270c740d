//! Faces by chance, and what else is asked of them.
use judge::formula::{AND, AT0, AT1, FF, FT, OR, Tree, at, leaf, pair};
use judge::random::{Random, SHAPES, Shape, face, grown};
use judge::worst::changed;

/// A face of so many leaves: any split, so many of a hundred nodes for, so many of a hundred leaves constants.
fn scattered(random: &mut Random, leaves: usize, d: usize, fors: usize, constants: usize) -> Tree {
    let mut kind = |r: &mut Random| if r.chance(fors) { OR } else { AND };
    let mut tip = |r: &mut Random| {
        if d == 0 || r.chance(constants) {
            leaf(*r.pick(&[FF, FT]))
        } else {
            at(*r.pick(&[AT0, AT1]), r.below(d) as u8)
        }
    };
    grown(Shape::Scattered, leaves, random, &mut kind, &mut tip)
}

/// Two faces of at most so many leaves over so many dimensions, any share of for in each.
pub fn pair_by_chance(random: &mut Random, most: usize, d: usize) -> (Tree, Tree) {
    let constants = *random.pick(&[0, 0, 5, 30]);
    let mut one = || {
        let (leaves, fors) = (random.between(1, most), random.below(101));
        scattered(random, leaves, d, fors, constants)
    };
    (one(), one())
}

/// A face like a: the same with something changed, wider, narrower, or one part of it.
fn alike(random: &mut Random, a: &Tree, dims: &[u8], most: usize) -> Tree {
    let shape = *random.pick(&SHAPES);
    let other = face(random, shape, 3, dims);
    let like = match random.below(6) {
        0 => a.clone(),
        1 => pair(OR, other, a.clone()),
        2 => pair(AND, a.clone(), other),
        3 if !a.parts.is_empty() => random.pick(&a.parts).clone(),
        _ => (0..random.between(1, 3)).fold(a.clone(), |t, _| changed(&t, random, dims)),
    };
    if like.nodes() < 2 * most { like } else { a.clone() }
}

/// Small groups under fand, so that much has to be determined, to a face of few literals.
pub fn groups(random: &mut Random, most: usize, d: usize) -> (Tree, Tree) {
    let (wide, mut left) = (random.between(1, 3), random.between(1, most));
    let mut a = leaf(FT);
    while left > wide {
        let group = (1..=wide).map(|_| at(*random.pick(&[AT0, AT1]), random.below(d) as u8));
        a = pair(AND, a, group.reduce(|x, y| pair(OR, x, y)).expect("a literal"));
        left -= wide;
    }
    let (leaves, fors) = (random.between(1, 4), random.below(101));
    let b = if random.chance(50) { leaf(FF) } else { scattered(random, leaves, d, fors, 10) };
    (a, b)
}

/// A question of at most so many leaves a face over d dimensions; in some a dimension may be d.
pub fn question(random: &mut Random, most: usize, d: usize) -> (Tree, Tree) {
    let beyond = usize::from(d < 255 && random.chance(3));
    let dims: Vec<u8> = (0..d + beyond).map(|n| n as u8).collect();
    let (mut a, mut b) = pair_by_chance(random, most, d + beyond);
    if random.chance(30) {
        let (shape, leaves) = (*random.pick(&SHAPES), random.between(1, most));
        a = face(random, shape, 2 * leaves - 1, &dims);
    }
    match random.below(10) {
        0 => b = leaf(FF),
        1..5 => b = alike(random, &a, &dims, most),
        _ => {}
    }
    (a, b)
}

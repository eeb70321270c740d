//! The slowest faces that were found, for whoever keeps clauses as sets of bits, forms all pairs, inserts into a sorted list and
//! tries every two clauses for a superset.
//!
//! A list of 256 clauses takes 16 leaves and no fewer, and pruning it takes 256 times 256 tests, whatever made it. So the most is
//! done where the other 240 leaves leave it as long as it is, one by one; random climbs under smaller limits (8 and 16 clauses,
//! 16 to 32 leaves) came to the same form. The clauses are alike but for the highest literals, which are compared last.
use crate::normal::parts::{LEAVES, both, choices, nested, one, sides, sum, zero, zeros};
use judge::formula::{AND, FF, FT, OR, Tree, leaf};
use judge::random::Shape;

/// The leaves beside a list of 256 clauses.
const BESIDE: usize = LEAVES - 16;

/// The eight highest dimensions, all choices of their sides: 256 clauses.
fn highest() -> Tree {
    choices(247..255, Shape::Balanced)
}

/// The tree with these beside it, one after the other from the inside.
fn beside(kind: u8, shape: Shape, tree: Tree, others: &[Tree]) -> Tree {
    let mut parts = others.to_vec();
    match shape {
        Shape::LeftDeep => parts.insert(0, tree),
        _ => {
            parts.reverse();
            parts.push(tree);
        }
    }
    nested(kind, shape, &parts)
}

/// 256 clauses of up to 248 literals; 5 by the result.
fn lengthened(shape: Shape) -> Tree {
    beside(AND, shape, highest(), &zeros(0, BESIDE))
}

/// The same, dropped at last: ff.
fn dropped() -> Tree {
    both(beside(AND, Shape::LeftDeep, highest(), &zeros(0, BESIDE - 1)), leaf(FF))
}

/// The same, but for one clause of 240 literals.
fn chosen() -> Tree {
    let lower = beside(AND, Shape::LeftDeep, highest(), &zeros(0, BESIDE - 8));
    beside(AND, Shape::LeftDeep, lower, &(247..255).map(one).collect::<Vec<_>>())
}

/// Four sums of four literals multiplied, 256 clauses as well, and lower literals beside them.
fn fours() -> Tree {
    let sums: Vec<_> = (0..4).map(|i| sum(&zeros(239 + 4 * i, 4))).collect();
    beside(AND, Shape::LeftDeep, nested(AND, Shape::Balanced, &sums), &zeros(0, 239))
}

/// Each of the sums makes 512 pairs, of which half are consistent.
fn sides_beside() -> Tree {
    let sums: Vec<_> = (0..BESIDE / 2).map(|i| sides(247 + i % 8)).collect();
    beside(AND, Shape::LeftDeep, highest(), &sums)
}

/// Of the ten so many come first that take the Rust seconds.
pub const TAKE_SECONDS: usize = 5;

/// The ten, slowest first.
pub fn worst() -> [(&'static str, Tree); 10] {
    let different: Vec<_> = (0..LEAVES).map(|i| if i < 255 { zero(i) } else { one(0) }).collect();
    let (left, right) = (Shape::LeftDeep, Shape::RightDeep);
    [
        ("256 clauses, 240 lower literals beside them", lengthened(left)),
        ("the same to the right", lengthened(right)),
        ("the same, at last fand ff", dropped()),
        ("the same, at last one of the clauses", chosen()),
        ("4 sums of 4 literals, 239 lower literals", fours()),
        ("256 clauses, 240 times fand ft", beside(AND, left, highest(), &vec![leaf(FT); BESIDE])),
        ("256 clauses, 240 times for ff", beside(OR, left, highest(), &vec![leaf(FF); BESIDE])),
        ("for of 256 literals, left-deep", nested(OR, left, &different)),
        ("256 clauses, 120 times both sides", sides_beside()),
        ("16 times the same 256 clauses", nested(AND, left, &vec![highest(); 16])),
    ]
}

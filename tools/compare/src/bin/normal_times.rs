//! The times of the normal form, ours beside the published Rust's, in one run: the slowest faces that were found, and ordinary ones.
//! usage: normal_times [ROUNDS]
use compare::normal::expected;
use compare::normal::parts::{LEAVES, both, conjunction, either, nested, one, sum, zero, zeros};
use compare::normal::worst::worst;
use judge::formula::{AND, FF, FT, OR, Tree, leaf};
use judge::ledger::MOST_NODES;
use judge::random::{Random, Shape, face};
use judge::session::{fresh, rust_face};
use linefeijoa::bytes;
use std::hint::black_box;
use std::time::{Duration, Instant};

/// More than any normal form needs.
const ROOM: usize = 1024;
/// No round starts after this time.
const PATIENCE: Duration = Duration::from_millis(500);

/// The least time of one round or more, and what the last one made.
fn least<T>(rounds: usize, mut work: impl FnMut() -> T) -> (Duration, T) {
    let (begin, mut best) = (Instant::now(), Duration::MAX);
    for round in 1.. {
        let start = Instant::now();
        let made = black_box(work());
        best = best.min(start.elapsed());
        if round >= rounds || begin.elapsed() > PATIENCE {
            return (best, made);
        }
    }
    unreachable!()
}

/// Both sides must say the same. No list here is over the limit, so that 5 is for the result alone.
fn time(rounds: usize, name: &str, tree: &Tree) {
    let (bytes, face, mut out) = (tree.bytes(), rust_face(tree), [0; ROOM]);
    let (ours, answered) = least(rounds, || bytes::normal(black_box(&bytes), &mut out));
    let (rust, normal) = least(rounds, || black_box(&face).normal());
    let normal = expected::bytes(&normal);
    let kept = expected::count_nodes(&normal) <= MOST_NODES;
    assert_eq!(answered, if kept { normal.len() as i64 } else { -5 }, "{name}");
    assert!(!kept || out.starts_with(&normal), "{name}: other bytes");
    let said = if kept { format!("{answered} bytes") } else { "refused 5".into() };
    let micros = |time: Duration| time.as_nanos() as f64 / 1e3;
    let (ours, rust) = (micros(ours), micros(rust));
    println!("| {name} | {} | {said} | {ours:.1} | {rust:.1} | {:.3} |", tree.nodes(), ours / rust);
}

fn random_face(seed: u64, shape: Shape, leaves: usize, dims: u8) -> Tree {
    let dims: Vec<u8> = (0..dims).collect();
    face(&mut Random::new(seed), shape, 2 * leaves - 1, &dims)
}

/// So many fands of three literals under for, or of fors under fand.
fn threes(outer: u8, count: usize) -> Tree {
    let group = |i: usize| {
        let parts = [zero(3 * i % 11), one(5 * i % 13 + 11), zero(7 * i % 17 + 24)];
        nested(AND + OR - outer, Shape::LeftDeep, &parts)
    };
    nested(outer, Shape::Balanced, &(0..count).map(group).collect::<Vec<_>>())
}

fn ordinary() -> Vec<(String, Tree)> {
    let mut found: Vec<(String, Tree)> = vec![
        ("ft".into(), leaf(FT)),
        ("0 fand 0'".into(), both(zero(0), one(0))),
        ("0 for 0'".into(), either(zero(0), one(0))),
        ("0' for (0' fand 1)".into(), either(one(0), both(one(0), zero(1)))),
        ("(0 for 1') fand (2 for 3)".into(), both(either(zero(0), one(1)), either(zero(2), zero(3)))),
        ("20 fands of 3 literals".into(), threes(OR, 20)),
        ("80 fands of 3 literals".into(), threes(OR, 80)),
        ("4 fors of 3 literals".into(), threes(AND, 4)),
        ("255 literals under fand".into(), conjunction(&zeros(0, 255))),
        ("64 literals under for, left-deep".into(), sum(&zeros(0, 64))),
        ("256 leaves ff under for, left-deep".into(), sum(&vec![leaf(FF); LEAVES])),
        ("256 leaves ft under fand, left-deep".into(), conjunction(&vec![leaf(FT); LEAVES])),
        ("256 times 0 under for, balanced".into(), nested(OR, Shape::Balanced, &vec![zero(0); LEAVES])),
    ];
    for (shape, leaves, dims) in [
        (Shape::Scattered, 8, 3),
        (Shape::Balanced, 16, 4),
        (Shape::Scattered, 64, 3),
        (Shape::LeftDeep, 64, 8),
        (Shape::Scattered, 256, 3),
        (Shape::LeftDeep, 256, 5),
        (Shape::RightDeep, 256, 255),
    ] {
        found.push((
            format!("random, {shape:?}, {leaves} leaves, {dims} dimensions"),
            random_face(3, shape, leaves, dims),
        ));
    }
    found
}

fn table(title: &str) {
    println!("\n{title}\n\n| face | nodes | answer | ours, µs | Rust, µs | ratio |\n|{}", "---|".repeat(6));
}

fn main() {
    let rounds = std::env::args().nth(1).map_or(2_000, |w| w.parse().expect("usage: normal_times [ROUNDS]"));
    // The Rust's folds are deep.
    fresh(|| {
        table("The slowest faces that were found");
        worst().iter().for_each(|(name, tree)| time(rounds, name, tree));
        table("Ordinary faces");
        ordinary().iter().for_each(|(name, tree)| time(rounds, name, tree));
    });
}

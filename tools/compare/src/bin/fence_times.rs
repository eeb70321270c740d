//! The times of the producer's limits, ours on bytes beside the published functions on trees that are built, in one run.
//! usage: fence_times [ROUNDS]
use compare::fences::expected::{rust_face, rust_interval};
use compare::fences::parts::{Turn, constant, kinds, leaves, literal, turns, way_down, with_leaf};
use compare::library::fence;
use judge::fixed::limit;
use judge::formula::{AT0, DIM, FT, I0, NEG, Sort, Tree, leaf, not, pair};
use judge::random::Shape;
use published::cubical::producer;
use std::hint::black_box;
use std::time::{Duration, Instant};

/// A round has so many calls that it takes about this time, so that the clock's own does not count.
const ROUND: Duration = Duration::from_micros(50);
/// No round starts after this time.
const PATIENCE: Duration = Duration::from_millis(500);
/// The dimensions of the formulas that have many: as many as the producer takes.
const DIMENSIONS: usize = 33;
const LONGEST: usize = 1_000_000;

/// Calls that are timed together.
struct Timed<F> {
    call: F,
    calls: u32,
    best: Duration,
}

impl<F: FnMut()> Timed<F> {
    fn new(call: F) -> Self {
        let mut timed = Self { call, calls: 1, best: Duration::MAX };
        while timed.round() < ROUND {
            timed.calls *= 2;
        }
        timed
    }
    fn round(&mut self) -> Duration {
        let start = Instant::now();
        (0..self.calls).for_each(|_| (self.call)());
        start.elapsed()
    }
    fn again(&mut self) {
        self.best = self.round().min(self.best);
    }
    /// The least time of a call, in microseconds.
    fn micros(&self) -> f64 {
        self.best.as_nanos() as f64 / 1e3 / f64::from(self.calls)
    }
}

/// One round or more.
fn repeat(rounds: usize, mut round: impl FnMut()) {
    let begin = Instant::now();
    round();
    for _ in 1..rounds {
        if begin.elapsed() > PATIENCE {
            return;
        }
        round();
    }
}

/// The least of the rounds of both, taken in turn.
fn in_turn(rounds: usize, ours: impl FnMut(), rust: impl FnMut()) -> (f64, f64) {
    let (mut ours, mut rust) = (Timed::new(ours), Timed::new(rust));
    repeat(rounds, || {
        ours.again();
        rust.again();
    });
    (ours.micros(), rust.micros())
}

fn said(answered: i64) -> String {
    if answered < 0 { format!("refused {}", -answered) } else { answered.to_string() }
}

/// Our call; what it answers counts as used.
fn ours(sort: Sort, bytes: &[u8]) -> impl FnMut() {
    move || {
        black_box(fence(sort, black_box(bytes)));
    }
}

/// One formula through both, which must say the same. That the Rust's words are let go is within its time.
fn time(rounds: usize, name: &str, t: &Tree) {
    let (sort, bytes) = (t.sort(), t.bytes());
    let ours = ours(sort, &bytes);
    let (mut nodes, mut good) = (0, false);
    let (ours, rust) = match sort {
        Sort::Face => {
            let face = rust_face(t);
            in_turn(rounds, ours, || {
                nodes = 0;
                good = producer::face(black_box(&face), 0, &mut nodes).is_ok();
            })
        }
        Sort::Interval => {
            let interval = rust_interval(t);
            in_turn(rounds, ours, || {
                nodes = 0;
                good = producer::interval(black_box(&interval), 0, &mut nodes).is_ok();
            })
        }
    };
    let answered = fence(sort, &bytes);
    assert_eq!(answered, if good { nodes as i64 } else { -13 }, "{name}");
    let count = t.nodes();
    println!("| {name} | {count} | {} | {ours:.4} | {rust:.4} | {:.3} |", said(answered), ours / rust);
}

/// Bytes that only our function gets: the Rust has no reader.
fn time_alone(rounds: usize, name: &str, sort: Sort, bytes: &[u8], nodes: usize) {
    assert_eq!(bytes.len(), LONGEST, "{name}");
    let mut timed = Timed::new(ours(sort, bytes));
    repeat(rounds, || timed.again());
    println!("| {name} | {nodes} | {} | {:.1} | - | - |", said(fence(sort, bytes)), timed.micros());
}

fn small() -> Vec<(&'static str, Tree)> {
    let (zero, dim) = (literal(Sort::Face, 0), literal(Sort::Interval, 0));
    vec![
        ("ft", leaf(FT)),
        ("at0 0", zero.clone()),
        ("0 fand 0", pair(kinds(Sort::Face)[0], zero.clone(), zero)),
        ("i0", leaf(I0)),
        ("dim 0", dim.clone()),
        ("neg dim 0", not(dim.clone())),
        ("dim 0 meet dim 0", pair(kinds(Sort::Interval)[0], dim.clone(), dim)),
    ]
}

/// Formulas of one sort, in the shapes that matter.
fn shapes(sort: Sort) -> Vec<(String, Tree)> {
    let word = if sort == Sort::Face { "face" } else { "interval" };
    let shaped = |shape, leaves| limit(sort, shape, leaves, DIMENSIONS);
    let spine = |turn| way_down(sort, &turns(&[turn], 32), literal(sort, 32), &literal(sort, 0));
    let largest = shaped(Shape::Balanced, 256);
    let last = with_leaf(largest.clone(), leaves(&largest) - 1, &literal(sort, 33));
    let rows = [
        ("balanced", shaped(Shape::Balanced, 32)),
        ("left-deep to depth 32", spine(Turn::Left)),
        ("right-deep to depth 32", spine(Turn::Right)),
        ("balanced", largest),
        ("balanced, the last leaf of dimension 33", last),
        ("left-deep", shaped(Shape::LeftDeep, 256)),
        ("right-deep", shaped(Shape::RightDeep, 256)),
    ];
    rows.map(|(name, t)| (format!("{word} of {} nodes, {name}", t.nodes()), t)).into()
}

fn chains() -> Vec<(String, Tree)> {
    let chain = |count| {
        way_down(Sort::Interval, &turns(&[Turn::Neg], count), literal(Sort::Interval, 32), &constant(Sort::Interval))
    };
    [32, 510].map(|count| (format!("{count} neg over dim 32"), chain(count))).into()
}

/// Operands of a million bytes: both sorts as deep as can be, and heads that no leaf follows.
fn longest(rounds: usize) {
    let half = LONGEST / 2;
    let left = [vec![kinds(Sort::Face)[0]; half - 1], vec![FT; half - 1], vec![AT0, 0]].concat();
    time_alone(rounds, "face of a million bytes, left-deep", Sort::Face, &left, LONGEST - 1);
    let chain = [vec![NEG; LONGEST - 2], vec![DIM, 0]].concat();
    time_alone(rounds, "neg over dim 0, a million bytes", Sort::Interval, &chain, LONGEST - 1);
    time_alone(rounds, "neg alone, a million bytes", Sort::Interval, &vec![NEG; LONGEST], LONGEST);
}

fn main() {
    let rounds = std::env::args().nth(1).map_or(2_000, |w| w.parse().expect("usage: fence_times [ROUNDS]"));
    println!("| formula | nodes | answer | ours, µs | Rust, µs | ratio |\n|{}", "---|".repeat(6));
    small().iter().for_each(|(name, t)| time(rounds, name, t));
    let all = [shapes(Sort::Face), shapes(Sort::Interval), chains()].concat();
    all.iter().for_each(|(name, t)| time(rounds, name, t));
    longest(rounds);
}

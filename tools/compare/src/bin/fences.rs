//! The producer's limits: ours beside the published functions of its syntax.
//! usage: fences [FORMULAS] [SEED]
use compare::fences::comparison::{Comparison, Histogram, MOST_DIFFERENCES, STACK, word};
use compare::fences::expected::{ANSWERS, COUNT, DEPTH, INDEX};
use compare::fences::limits::{self, Operand};
use compare::fences::parts::SORTS;
use compare::fences::seen::PAIRS;
use compare::fences::{made, parts};
use compare::library::fence;
use compare::normal::limits::short_strings;
use compare::watched::depth::Stack;
use judge::exhaustive::{faces_up_to, intervals_up_to};
use judge::formula::{Sort, Tree};
use judge::random::Random;
use judge::session::fresh;
use published::cubical::producer::{BYTES, FILES, SUM};
use std::hint::black_box;
use std::process::ExitCode;
use std::time::Instant;

const FORMULAS: u64 = 300_000;
const SEED: u64 = 1;
/// Operands asked in one thread.
const BATCH: usize = 1_000;
/// A tenth as many damaged operands as formulas.
const DAMAGED_SHARE: u64 = 10;
/// Every formula of so many nodes over these dimensions is asked.
const NODES: usize = 7;
const DIMENSIONS: [u8; 4] = [0, 31, 32, 33];

const SMALL: &str = "every formula up to 7 nodes over 0, 31, 32, 33";
const STRINGS: &str = "short strings of bytes";
const HAND: &str = "made by hand";
const LARGEST: &str = "100,000 and a million nodes";
const RANDOM: &str = "random formulas";
const DAMAGED: &str = "damaged bytes";
const PARTS: [&str; 6] = [SMALL, STRINGS, HAND, LARGEST, RANDOM, DAMAGED];

/// Depths and dimensions with columns of their own; the limit is 32.
const COLUMNS: std::ops::RangeInclusive<usize> = 30..=35;

fn told(c: &Comparison, part: &str, start: Instant) {
    println!("{part}: {}, differences so far {}; {} s", c.count(part), c.differences, start.elapsed().as_secs());
}

/// Operands that stand fast.
fn fixed(c: &mut Comparison, part: &'static str, operands: &[Operand]) {
    let start = Instant::now();
    for batch in operands.chunks(BATCH) {
        if c.differences < MOST_DIFFERENCES {
            c.operands(part, part, batch);
        }
    }
    told(c, part, start);
}

/// Batches by their seeds, faces and intervals in turn, until a part has so many operands.
fn until(c: &mut Comparison, part: &'static str, most: u64, seed: u64, operand: impl Fn(&mut Random, Sort) -> Vec<u8>) {
    let (start, mut next) = (Instant::now(), seed);
    while c.count(part) < most && c.differences < MOST_DIFFERENCES {
        let mut random = Random::new(next);
        let operands: Vec<_> = (0..BATCH).map(|i| (SORTS[i % 2], operand(&mut random, SORTS[i % 2]))).collect();
        c.operands(part, &format!("{part} of seed {next}"), &operands);
        next += 1;
    }
    told(c, part, start);
}

/// Every small formula; the generator counts dimensions from 0 on.
fn every_small() -> Vec<Operand> {
    let all = [faces_up_to, intervals_up_to].map(|make| make(NODES, DIMENSIONS.len() as u8));
    let renamed = |t: Tree| {
        let mut rename = |leaf: Tree, _| Tree { dim: DIMENSIONS[usize::from(leaf.dim)], ..leaf };
        parts::grafted(t, 0, &mut rename).bytes()
    };
    let of = |(sort, trees): (Sort, Vec<Tree>)| trees.into_iter().map(move |t| (sort, renamed(t)));
    SORTS.into_iter().zip(all).flat_map(of).collect()
}

fn strings() -> Vec<Operand> {
    SORTS.iter().flat_map(|sort| short_strings(limits::nearly(*sort)).into_iter().map(|s| (*sort, s))).collect()
}

fn run(c: &mut Comparison, formulas: u64, seed: u64) {
    fixed(c, SMALL, &every_small());
    fixed(c, STRINGS, &strings());
    fixed(c, HAND, &fresh(limits::operands));
    fixed(c, LARGEST, &limits::largest());
    until(c, RANDOM, formulas, seed, |random, sort| made::formula(random, sort).bytes());
    until(c, DAMAGED, formulas / DAMAGED_SHARE, seed, made::damaged);
}

/// What did not occur, without which too little is shown.
fn missing(c: &Comparison) -> Vec<String> {
    let sorts = SORTS.map(word);
    let answers = sorts.iter().flat_map(|sort| ANSWERS.map(|answer| (*sort, answer)));
    let answers = answers.filter(|(sort, answer)| !c.answers.keys().any(|(_, s, a)| s == sort && a == answer));
    let owed = [
        ("depth", &c.depths, [(COUNT, 31), (COUNT, 32), (DEPTH, 33), (DEPTH, 34)]),
        ("dimension", &c.indices, [(COUNT, 31), (COUNT, 32), (INDEX, 33), (INDEX, 34)]),
    ];
    let limits = owed.into_iter().flat_map(|(what, met, owed)| {
        let unmet = owed.into_iter().filter(|key| !met.contains_key(key));
        unmet.map(move |(answer, n)| format!("{what} {n}, {answer}"))
    });
    let pairs = PAIRS.iter().filter(|pair| !c.pairs.contains_key(pair)).map(|(p, q)| format!("{p} and {q} at once"));
    answers.map(|(sort, answer)| format!("{sort}, {answer}")).chain(limits).chain(pairs).collect()
}

/// A row of the table: these parts and sorts together.
fn row(c: &Comparison, name: &str, parts: &[&str], sorts: &[&str]) {
    let counted = |answer: &str| {
        let of = |(part, sort, a): &(&str, &str, &str)| parts.contains(part) && sorts.contains(sort) && *a == answer;
        c.answers.iter().filter(|(key, _)| of(key)).map(|(_, n)| n).sum::<u64>()
    };
    let cells = ANSWERS.map(counted);
    println!("| {name} | {} | {} |", cells.iter().sum::<u64>(), cells.map(|n| n.to_string()).join(" | "));
}

/// Rows of counts by depth or by largest dimension.
fn histogram(what: &str, counts: &Histogram) {
    let (low, high) = (*COLUMNS.start(), *COLUMNS.end());
    let columns = COLUMNS.map(|n| n.to_string()).collect::<Vec<_>>().join(" | ");
    println!("\n| {what} | below | {columns} | above |\n|{}", "---|".repeat(high - low + 4));
    for answer in [COUNT, DEPTH, INDEX] {
        let counted = |from: usize, to: usize| {
            counts.iter().filter(|((a, n), _)| *a == answer && (from..=to).contains(n)).map(|(_, n)| n).sum::<u64>()
        };
        let columns = COLUMNS.map(|n| counted(n, n).to_string()).collect::<Vec<_>>().join(" | ");
        println!("| {answer} | {} | {columns} | {} |", counted(0, low - 1), counted(high + 1, usize::MAX));
    }
}

fn report(c: &Comparison) {
    println!("\n| | operands | {} |\n|{}", ANSWERS.join(" | "), "---|".repeat(ANSWERS.len() + 2));
    let sorts = SORTS.map(word);
    for (part, sort) in PARTS.iter().flat_map(|part| sorts.map(|sort| (*part, sort))) {
        row(c, &format!("{part}, {sort}"), &[part], &[sort]);
    }
    row(c, "all", &PARTS, &sorts);
    histogram("depth", &c.depths);
    histogram("largest dimension", &c.indices);
    let pairs: Vec<_> = c.pairs.iter().map(|((p, q), n)| format!("{p} and {q}: {n}")).collect();
    println!("\noperands that break two questions at once, the lower one answered: {}", pairs.join(", "));
}

/// How much of the stack our library touches on these operands.
fn touched(operands: &[Operand]) -> usize {
    let mut stack = Stack::default();
    let of = |(sort, operand): &Operand| {
        stack.touched(|| {
            black_box(fence(*sort, operand));
        })
    };
    operands.iter().map(of).max().expect("an operand")
}

fn main() -> ExitCode {
    let mut words = std::env::args().skip(1).map(|w| w.parse().expect("usage: fences [FORMULAS] [SEED]"));
    let (formulas, seed) = (words.next().unwrap_or(FORMULAS), words.next().unwrap_or(SEED));
    println!("published source: {FILES} files, {BYTES} bytes, sum {SUM:016x}; seeds from {seed} on");
    let mut comparison = Comparison::default();
    run(&mut comparison, formulas, seed);
    report(&comparison);
    let measured = limits::measured();
    let (count, deepest) = (measured.len(), touched(&measured));
    println!("stack that our library touched on {count} operands: at most {deepest} bytes; it ran in {STACK}");
    let missing = missing(&comparison);
    if !missing.is_empty() {
        println!("did not occur: {}", missing.join("; "));
    }
    println!("differences: {}", comparison.differences);
    if comparison.differences == 0 && missing.is_empty() { ExitCode::SUCCESS } else { ExitCode::FAILURE }
}

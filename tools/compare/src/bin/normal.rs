//! The normal form: ours beside the published `Face::normal`.
//! usage: normal [FACES] [SEED]
use compare::normal::comparison::{Comparison, LENGTHS, MOST_DIFFERENCES};
use compare::normal::expected::ANSWERS;
use compare::normal::{limits, made, worst};
use judge::exhaustive::faces_up_to;
use judge::random::Random;
use published::{BYTES, FILES, SUM};
use std::process::ExitCode;
use std::time::Instant;

const FACES: u64 = 500_000;
const SEED: u64 = 1;
/// Operands asked in one thread.
const BATCH: usize = 1_000;
/// Every face of so many nodes over so many dimensions is asked.
const NODES: usize = 7;
const DIMENSIONS: u8 = 2;
/// Bytes that faces have, or just not.
const NEARLY: [u8; 11] = [0, 1, 2, 3, 4, 5, 6, 16, 18, 254, 255];

const SMALL: &str = "every face up to 7 nodes over 2 dimensions";
const STRINGS: &str = "short strings of bytes";
const HAND: &str = "made by hand";
const RANDOM: &str = "random faces";
const DAMAGED: &str = "damaged bytes";
const PARTS: [&str; 5] = [SMALL, STRINGS, HAND, RANDOM, DAMAGED];

/// A tenth as many damaged operands as faces.
const DAMAGED_SHARE: u64 = 10;

/// Batches by their seeds, until a part has so many operands.
fn until(c: &mut Comparison, part: &'static str, most: u64, seed: u64, operand: impl Fn(&mut Random) -> Vec<u8>) {
    let (start, mut next) = (Instant::now(), seed);
    while c.count(part) < most && c.differences < MOST_DIFFERENCES {
        let mut random = Random::new(next);
        let operands: Vec<_> = (0..BATCH).map(|_| operand(&mut random)).collect();
        c.operands(part, &format!("{part} of seed {next}"), Some(&mut random), &operands);
        next += 1;
    }
    println!("{part}: {}, differences so far {}; {} s", c.count(part), c.differences, start.elapsed().as_secs());
}

/// Operands that stand fast, in outputs of every length.
fn fixed(c: &mut Comparison, part: &'static str, operands: &[Vec<u8>]) {
    let start = Instant::now();
    for batch in operands.chunks(BATCH).take_while(|_| c.differences < MOST_DIFFERENCES).collect::<Vec<_>>() {
        c.operands(part, part, None, batch);
    }
    println!("{part}: {}, differences so far {}; {} s", c.count(part), c.differences, start.elapsed().as_secs());
}

fn run(c: &mut Comparison, faces: u64, seed: u64) {
    let small: Vec<_> = faces_up_to(NODES, DIMENSIONS).iter().map(|f| f.bytes()).collect();
    fixed(c, SMALL, &small);
    fixed(c, STRINGS, &limits::short_strings(&NEARLY));
    let slow = worst::worst().into_iter().skip(worst::TAKE_SECONDS).map(|(_, face)| face);
    let hand: Vec<_> = limits::faces().into_iter().chain(slow).map(|face| face.bytes()).collect();
    fixed(c, HAND, &hand);
    fixed(c, HAND, &limits::operands());
    until(c, RANDOM, faces, seed, |random| made::face(random).bytes());
    until(c, DAMAGED, faces / DAMAGED_SHARE, seed, made::damaged);
}

/// What did not occur, without which too little is shown.
fn missing(c: &Comparison) -> Vec<String> {
    let answers = ANSWERS.iter().filter(|a| !c.calls.keys().any(|(_, answer)| answer == *a));
    let lists = LENGTHS.iter().map(|n| format!("{n} at a fand"));
    let lists = lists.chain([255, 256, 257].map(|n| format!("{n} at a for")));
    let nodes = [511, 513].iter().flat_map(|n| [format!("result of {n}"), format!("operand of {n}")]);
    let limits = lists.chain(nodes).chain(["dropped".to_owned()]).filter(|limit| !c.limits.contains_key(limit));
    answers.map(|answer| format!("answer {answer}")).chain(limits).collect()
}

/// A row of the table: these parts together.
fn row(c: &Comparison, name: &str, parts: &[&'static str]) {
    let calls = |answer| parts.iter().filter_map(|part| c.calls.get(&(*part, answer))).sum::<u64>();
    let cells = ANSWERS.map(calls);
    let operands: u64 = parts.iter().map(|part| c.count(part)).sum();
    println!("| {name} | {operands} | {} | {} |", cells.iter().sum::<u64>(), cells.map(|n| n.to_string()).join(" | "));
}

fn report(c: &Comparison) {
    println!("\n| | operands | calls | {} |\n|{}", ANSWERS.join(" | "), "---|".repeat(ANSWERS.len() + 3));
    PARTS.iter().for_each(|part| row(c, part, &[part]));
    row(c, "all", &PARTS);
    let met = |limit: String| c.limits.get(&limit).copied().unwrap_or_default();
    let lists = |what: &str| LENGTHS.map(|n| format!("{n}: {}", met(format!("{n} at a {what}")))).join(", ");
    println!("\nlongest list before pruning, at a fand, of {}; at a for, of {}", lists("fand"), lists("for"));
    println!("5 by clauses although the Rust's normal form has at most 511 nodes: {}", met("dropped".into()));
    let nodes = |what: &str| [511, 513].map(|n| format!("{n}: {}", met(format!("{what} of {n}")))).join(", ");
    println!("nodes of the normal form {}; of the operand {}", nodes("result"), nodes("operand"));
    println!("asked of the published function and of its copy: {}", c.published);
    println!("left out there, 5 by the copy's lists alone, since the Rust would not end soon: {}", c.not_asked);
}

fn main() -> ExitCode {
    let mut words = std::env::args().skip(1).map(|w| w.parse().expect("usage: normal [FACES] [SEED]"));
    let (faces, seed) = (words.next().unwrap_or(FACES), words.next().unwrap_or(SEED));
    println!("published source: {FILES} files, {BYTES} bytes, sum {SUM:016x}; seeds from {seed} on");
    let mut comparison = Comparison::default();
    run(&mut comparison, faces, seed);
    report(&comparison);
    let missing = missing(&comparison);
    if !missing.is_empty() {
        println!("did not occur: {}", missing.join("; "));
    }
    println!("differences: {}", comparison.differences);
    if comparison.differences == 0 && missing.is_empty() { ExitCode::SUCCESS } else { ExitCode::FAILURE }
}

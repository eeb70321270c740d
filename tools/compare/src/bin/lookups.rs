//! Steps of ledgers looked up through our library and by the oracle's own reader, and the names of rules.
//! usage: lookups [QUESTIONS] [SEED]
use compare::lookups::asked::{MOST_DIFFERENCES, Tally};
use compare::lookups::made;
use compare::stack::on_stack;
use judge::random::Random;
use judge::rules;
use judge::session::fresh;
use published::{BYTES, FILES, SUM};
use std::process::ExitCode;

const QUESTIONS: u64 = 1_000_000;
const SEED: u64 = 1;
const STACK: usize = 1 << 20;

/// Answers without which the run shows too little.
const OWED: [&str; 9] = [
    "operands",
    "kind",
    "a reference",
    "past the last reference",
    "past the end",
    "no ledger",
    "a name",
    "a name, refused 6",
    "no kind",
];

fn ledgers(tally: &mut Tally, name: &str, seed: u64, batch: Vec<Vec<u8>>) {
    let random = &mut Random::new(seed);
    let before = tally.differences;
    on_stack(STACK, name, || batch.iter().for_each(|bytes| tally.ledger(bytes, random)));
    if tally.differences > before {
        println!("  in {name}");
    }
}

fn main() -> ExitCode {
    let mut words = std::env::args().skip(1).map(|w| w.parse().expect("usage: lookups [QUESTIONS] [SEED]"));
    let (questions, seed) = (words.next().unwrap_or(QUESTIONS), words.next().unwrap_or(SEED));
    println!("published source: {FILES} files, {BYTES} bytes, sum {SUM:016x}; seeds from {seed} on");
    let mut tally = Tally::default();
    on_stack(STACK, "the names", || made::kinds().into_iter().for_each(|kind| tally.name(kind)));
    ledgers(&mut tally, "the fixed ledgers", seed, fresh(made::fixed));
    let mut next = seed;
    while tally.count() < questions && tally.differences < MOST_DIFFERENCES {
        ledgers(&mut tally, &format!("seed {next}"), next, fresh(|| made::batch(next)));
        next += 1;
    }
    tally.answers.iter().for_each(|(class, n)| println!("{class}: {n}"));
    let missing: Vec<_> = OWED.iter().filter(|class| !tally.answers.contains_key(**class)).collect();
    println!("{} questions, kinds met {}, differences: {}", tally.count(), tally.kinds.len(), tally.differences);
    if !missing.is_empty() {
        println!("did not occur: {missing:?}");
    }
    let good = tally.differences == 0 && missing.is_empty() && tally.kinds.len() == rules::RULES.len();
    if good { ExitCode::SUCCESS } else { ExitCode::FAILURE }
}

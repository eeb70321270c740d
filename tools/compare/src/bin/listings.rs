//! Listings and printed formulas: ours beside the published Rust's steps, printed in document 01's form.
//! usage: listings [CLAIMS] [TEXTS] [SEED]
use compare::listings::comparison::{Comparison, MOST_DIFFERENCES, STEPS, WRITTEN};
use compare::listings::{facesteps, ledgers, made};
use judge::formula::Sort;
use judge::random::Random;
use judge::rules;
use judge::session::fresh;
use published::{BYTES, FILES, SUM};
use std::collections::BTreeSet;
use std::process::ExitCode;
use std::time::Instant;

const CLAIMS: u64 = 200_000;
const TEXTS: u64 = 200_000;
const SEED: u64 = 1;
/// Operands asked in one thread.
const OPERANDS: usize = 200;

const CLAIM: &str = "claims";
const DAMAGED: &str = "damaged lines";
const PARTS: [&str; 4] = [CLAIM, DAMAGED, WRITTEN, STEPS];

/// Answers without which a part shows too little.
const OWED: [(&str, &[&str]); 4] = [
    (CLAIM, &["yes", "refused 7", "refused 8", "refused 9"]),
    (DAMAGED, &["yes", "refused 3", "refused 4", "refused 7", "refused 8", "refused 9", "refused 11"]),
    (WRITTEN, &["written", "refused 2", "refused 3", "refused 4"]),
    (STEPS, &["written", "past the end", "refused 1"]),
];

/// Batches by their seeds, until a part has so many more.
fn until(c: &mut Comparison, part: &'static str, most: u64, seed: u64, batch: impl Fn(&mut Comparison, u64)) {
    let (start, most, mut next) = (Instant::now(), c.count(part) + most, seed);
    while c.count(part) < most && c.differences < MOST_DIFFERENCES {
        batch(c, next);
        next += 1;
    }
    println!("{part}: {}, differences so far {}; {} s", c.count(part), c.differences, start.elapsed().as_secs());
}

fn operands(seed: u64) -> Vec<(Sort, Vec<u8>)> {
    let mut random = Random::new(seed);
    let sorts = [Sort::Face, Sort::Interval].into_iter().cycle().take(OPERANDS);
    sorts.map(|sort| (sort, made::operand(&mut random, sort))).collect()
}

fn fixed_operands() -> Vec<(Sort, Vec<u8>)> {
    let both = |bytes: Vec<u8>| [(Sort::Face, bytes.clone()), (Sort::Interval, bytes)];
    made::fixed_operands().into_iter().flat_map(both).collect()
}

/// Those made by hand, then random ones by their seeds.
fn run(c: &mut Comparison, claims: u64, texts: u64, seed: u64) {
    let random = &mut Random::new(seed);
    c.inputs(CLAIM, "the full ledgers", random, &made::full_ledgers());
    c.inputs(DAMAGED, "the fixed lines", random, &made::fixed());
    c.operands("the fixed operands", random, &fixed_operands());
    c.ledgers(random, &fresh(ledgers::fixed));
    until(c, CLAIM, claims, seed, |c, seed| {
        c.inputs(CLAIM, &format!("claims of seed {seed}"), &mut Random::new(seed), &made::claims(seed));
    });
    until(c, DAMAGED, texts, seed, |c, seed| {
        c.inputs(DAMAGED, &format!("damaged lines of seed {seed}"), &mut Random::new(seed), &made::damages(seed));
    });
    until(c, WRITTEN, texts, seed, |c, seed| {
        c.operands(&format!("operands of seed {seed}"), &mut Random::new(seed), &operands(seed));
    });
    until(c, STEPS, texts, seed, |c, seed| {
        c.ledgers(&mut Random::new(seed), &fresh(|| ledgers::made(seed)));
    });
}

/// Answers, kinds and predicates that did not occur.
fn missing(c: &Comparison) -> Vec<String> {
    let answers = OWED.iter().flat_map(|(part, answers)| answers.iter().map(|a| (*part, (*a).to_owned())));
    let answers = answers.filter(|key| !c.counts.contains_key(key)).map(|(part, answer)| format!("{part}: {answer}"));
    let kinds = (1..=rules::RULES.len()).filter(|kind| !c.kinds.contains_key(kind));
    answers.chain(kinds.map(|kind| format!("rule {}", rules::name(kind)))).collect()
}

fn report(c: &Comparison) {
    for part in PARTS {
        let answers = c.counts.iter().filter(|((p, _), _)| *p == part);
        let answers: Vec<_> = answers.map(|((_, answer), n)| format!("{answer}: {n}")).collect();
        let short = c.short.get(part).unwrap_or(&0);
        println!("{part} {}: {}; outputs too short, refused 6: {short}", c.count(part), answers.join(", "));
    }
    let predicates: BTreeSet<_> = c.kinds.keys().map(|kind| rules::predicate(rules::name(*kind))).collect();
    println!("kinds listed {}, predicates {}", c.kinds.len(), predicates.len());
    let covers = facesteps::MOST_COVERS;
    println!(
        "searches of more than {covers} covers, left out: {}; the longest listing: {} bytes",
        c.left_out, c.longest
    );
    println!("differences: {}", c.differences);
}

fn main() -> ExitCode {
    let mut words = std::env::args().skip(1).map(|w| w.parse().expect("usage: listings [CLAIMS] [TEXTS] [SEED]"));
    let mut number = |otherwise| words.next().unwrap_or(otherwise);
    let (claims, texts, seed) = (number(CLAIMS), number(TEXTS), number(SEED));
    println!("published source: {FILES} files, {BYTES} bytes, sum {SUM:016x}; seeds from {seed} on");
    let mut comparison = Comparison::default();
    run(&mut comparison, claims, texts, seed);
    report(&comparison);
    let missing = missing(&comparison);
    if !missing.is_empty() {
        println!("did not occur: {}", missing.join("; "));
    }
    let good = comparison.differences == 0 && missing.is_empty();
    println!("{}", if good { "all agree" } else { "NOT all agree" });
    if good { ExitCode::SUCCESS } else { ExitCode::FAILURE }
}

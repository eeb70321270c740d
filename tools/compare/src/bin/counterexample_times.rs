//! The times of counterexamples: loads, families, and the worst of many questions by chance and changed ones.
//! usage: counterexample_times [FACES] [SEED] [SECONDS] [MILLISECONDS]
use compare::counterexamples::made::pair_by_chance;
use compare::counterexamples::model::determined;
use compare::normal::parts::{conjunction, either, one, zero, zeros};
use compare::questions::{Question, mutant};
use compare::watched::watch::{Failure, Refuted, Watch};
use compare::watched::worker;
use judge::bench::load;
use judge::formula::{FF, Tree, leaf};
use judge::ledger::MOST_NODES;
use judge::random::Random;
use judge::text::HEX;
use std::sync::OnceLock;
use std::time::{Duration, Instant};

const FACES: usize = 20_000;
const SEED: usize = 1;
/// No question by chance is begun after so many seconds.
const SECONDS: usize = 900;
/// A question that takes longer, in milliseconds, is given up.
const MILLISECONDS: usize = 20_000;
static LIMIT: OnceLock<Duration> = OnceLock::new();
/// Rounds of the loads and the families, of which the least counts.
const ROUNDS: usize = 20;
/// Seeds of the loads, and what is added for the second face.
const SEEDS: u32 = 200;
const OTHER: u32 = 1_000;
/// Of a hundred questions so many are by chance; the others are changed ones of the slowest so far.
const BY_CHANCE: usize = 60;
const CLIMBERS: usize = 12;
/// The most leaves, 511 nodes.
const LEAVES: usize = 256;
const ROOM: usize = 255;

/// Bounds of the rows of times, in microseconds.
const BOUNDS: [u64; 10] = [10, 100, 1_000, 10_000, 100_000, 1_000_000, 2_000_000, 10_000_000, 20_000_000, u64::MAX];

fn limit() -> Duration {
    *LIMIT.get().expect("the limit is set at the start")
}

fn late() -> String {
    format!("over {} s", limit().as_secs_f64())
}

fn micros(time: Duration) -> String {
    format!("{:.1}", time.as_nanos() as f64 / 1e3)
}

/// What was answered.
fn said(refuted: &Refuted) -> String {
    match usize::try_from(refuted.number) {
        Ok(d) => format!("{} of {d} dimensions determined", determined(&refuted.out[..d])),
        Err(_) => format!("refused {}", -refuted.number),
    }
}

fn ask(watch: &mut Watch, rounds: usize, d: usize, a: &Tree, b: &Tree) -> Option<Refuted> {
    match watch.counterexample(rounds, ROOM, d, &a.bytes(), &b.bytes()) {
        Ok(refuted) => Some(refuted),
        Err(Failure::Late) => None,
        Err(Failure::Died) => panic!("the process ended on d {d}, a {}, b {}", HEX(&a.bytes()), HEX(&b.bytes())),
    }
}

/// The slowest seed of each row.
fn loads(watch: &mut Watch) {
    println!(
        "Loads of W14, seeds 1 to {SEEDS}: a from seed s, b from seed s + {OTHER}, or ff; the slowest of each row\n"
    );
    println!("| d | leaves | b | seed | answer | worst, µs | median, µs | assignments |\n|{}", "---|".repeat(8));
    for d in [8, 64] {
        for leaves in [16, 32, 64, 128, 256] {
            for load_of_b in [true, false] {
                let mut times = vec![];
                for seed in 1..=SEEDS {
                    let b = if load_of_b { load(seed + OTHER, leaves, d) } else { leaf(FF) };
                    let asked = ask(watch, ROUNDS, d as usize, &load(seed, leaves, d), &b);
                    times.push((asked.as_ref().map_or(limit(), |r| r.time), seed, asked));
                }
                times.sort_by_key(|(time, seed, _)| (*time, *seed));
                let found = times.iter().filter(|(_, _, asked)| asked.as_ref().is_some_and(|r| r.number >= 0)).count();
                let median = micros(times[times.len() / 2].0);
                let (time, seed, asked) = times.last().expect("a seed");
                let (words, time) = asked.as_ref().map_or(("-".into(), late()), |r| (said(r), micros(*time)));
                let b = if load_of_b { "a load" } else { "ff" };
                println!("| {d} | {leaves} | {b} | {seed} | {words} | {time} | {median} | {found} of {SEEDS} |");
            }
        }
    }
}

/// One row of the families.
fn row(watch: &mut Watch, name: &str, d: usize, a: &Tree, b: &Tree) {
    let asked = ask(watch, ROUNDS, d, a, b);
    let (words, time) = asked.map_or(("-".into(), late()), |r| (said(&r), micros(r.time)));
    println!("| {name} | {d} | {} | {words} | {time} |", a.nodes());
}

/// Groups of two literals that all have to hold, to faces that the first way through them satisfies, and to ff; and literals.
fn families(watch: &mut Watch) {
    println!("\nFamilies, groups joined by fand\n\n| question | d | nodes of a | answer | µs |\n|{}", "---|".repeat(5));
    for n in [16, 64, 127] {
        let same: Vec<_> = (0..n).map(|i| either(zero(i), one(i))).collect();
        let next: Vec<_> = (0..n).map(|i| either(zero(i), one(i + 1))).collect();
        for (name, groups) in [("i for i'", &same), ("i for (i+1)'", &next)] {
            let a = conjunction(groups);
            let goals = [("ff", leaf(FF)), ("all zeros", conjunction(&zeros(0, n))), ("0", zero(0))];
            for (goal, b) in goals {
                row(watch, &format!("{n} of {name} to {goal}"), n + 1, &a, &b);
            }
        }
    }
    let literals: Vec<_> = (0..LEAVES).map(|i| zero(i % ROOM)).collect();
    row(watch, "256 literals to ff", ROOM, &conjunction(&literals), &leaf(FF));
}

#[derive(Clone)]
struct Found {
    question: Question,
    /// None where it was given up.
    asked: Option<Refuted>,
}

impl Found {
    fn time(&self) -> Duration {
        self.asked.as_ref().map_or(limit(), |r| r.time)
    }
    fn print(&self) {
        let Question { a, b } = &self.question;
        let (words, time) = match &self.asked {
            Some(refuted) => (said(refuted), format!("{:.1} ms", refuted.time.as_secs_f64() * 1e3)),
            None => ("given up".into(), late()),
        };
        println!("\n{time}, {words}: d {}, nodes {} and {}", self.question.d(), a.nodes(), b.nodes());
        println!("  a {}\n  b {}", HEX(&a.bytes()), HEX(&b.bytes()));
    }
}

/// Questions by chance, and changed ones of the slowest that ended.
fn search(watch: &mut Watch, most: usize, seed: usize, patience: Duration) {
    println!("\n{most} questions by chance and changed ones, seed {seed}, faces of up to {MOST_NODES} nodes");
    let (begin, mut random) = (Instant::now(), Random::new(seed as u64));
    let (mut slowest, mut given_up): (Vec<Found>, Vec<Found>) = (vec![], vec![]);
    let (mut tried, mut counts) = (0, [0; BOUNDS.len()]);
    while tried < most && begin.elapsed() < patience {
        let question = if tried < most * BY_CHANCE / 100 || slowest.is_empty() {
            let d = *random.pick(&[3, 8, 16, 32, 64, 128, 255]);
            let (a, b) = pair_by_chance(&mut random, LEAVES, d);
            Question { a, b }
        } else {
            let (from, donor) = (random.pick(&slowest).question.clone(), random.pick(&slowest).question.clone());
            mutant(&from, &donor, &mut random, MOST_NODES)
        };
        tried += 1;
        let asked = ask(watch, 1, question.d(), &question.a, &question.b);
        let found = Found { question, asked };
        let micros = found.asked.as_ref().map_or(u64::MAX, |r| r.time.as_micros() as u64);
        counts[BOUNDS.iter().position(|bound| micros <= *bound).expect("a row")] += 1;
        if found.asked.is_none() {
            given_up.push(found);
            continue;
        }
        slowest.push(found);
        slowest.sort_by_key(|f| std::cmp::Reverse(f.time()));
        slowest.truncate(CLIMBERS);
    }
    println!("{tried} of {most}, {} s\n\n| time up to | questions |\n|---|---|", begin.elapsed().as_secs());
    for (bound, count) in BOUNDS.iter().zip(counts) {
        let words = if *bound == u64::MAX { late() } else { format!("{} ms", *bound as f64 / 1e3) };
        println!("| {words} | {count} |");
    }
    if tried < most {
        println!("\nNOT all were tried: {tried} of {most} in {} s", patience.as_secs());
    }
    given_up.iter().for_each(Found::print);
    if let Some(found) = slowest.first() {
        println!("\nthe worst that ended:");
        found.print();
    }
}

fn main() {
    if worker::served() {
        return;
    }
    let usage = "usage: counterexample_times [FACES] [SEED] [SECONDS] [MILLISECONDS]";
    let mut words = std::env::args().skip(1).map(|w| w.parse::<usize>().expect(usage));
    let mut word = |otherwise| words.next().unwrap_or(otherwise);
    let (most, seed, seconds) = (word(FACES), word(SEED), word(SECONDS));
    let limit = *LIMIT.get_or_init(|| Duration::from_millis(word(MILLISECONDS) as u64));
    let mut watch = Watch::new(limit);
    loads(&mut watch);
    families(&mut watch);
    search(&mut watch, most, seed, Duration::from_secs(seconds as u64));
}

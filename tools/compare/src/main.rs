//! Random lists of calls through the published Rust and through our library.
//! usage: compare [CALLS] [SEED]
use compare::expected::{self, List, Run};
use compare::lists;
use compare::replay::replay;
use compare::shrink;
use compare::tally::Tally;
use judge::session::fresh;
use published::{BYTES, FILES, SUM};
use std::process::ExitCode;
use std::time::Instant;

const CALLS: u64 = 1_000_000;
const SEED: u64 = 7_000_000;
/// After so many differences the run stops.
const MOST_DIFFERENCES: u64 = 10;
/// A line about the progress after so many calls.
const PROGRESS: u64 = 100_000;

struct Comparison {
    tally: Tally,
    start: Instant,
    told: u64,
}

impl Comparison {
    fn ended(&self) -> bool {
        self.tally.differences >= MOST_DIFFERENCES
    }
    /// One list through our library, beside what the Rust said.
    fn list(&mut self, name: &str, list: &List, run: &Run) {
        self.tally.add(list, run);
        match replay(name, list, run) {
            Ok(bytes) => self.tally.bytes += bytes,
            Err(difference) => {
                self.tally.differences += 1;
                println!("\nDIFFERENCE in {name}, call {}: {}", difference.item + 1, difference.what);
                let (smaller, found) = shrink::smallest(list, difference);
                let run = fresh(|| expected::run(&smaller));
                println!("a small list that differs, at call {}: {}", found.item + 1, found.what);
                println!("{}", shrink::text(&smaller, &run));
            }
        }
    }
    /// The lists that are made, each through the Rust and then our library.
    fn lists(&mut self, name: &str, make: impl FnOnce() -> Vec<List> + Send) {
        let with_runs = || {
            let lists = make();
            lists.into_iter().map(|list| (expected::run(&list), list)).collect::<Vec<_>>()
        };
        for (i, (run, list)) in fresh(with_runs).iter().enumerate() {
            if !self.ended() {
                self.list(&format!("{name}, list {}", i + 1), list, run);
            }
        }
        self.progress();
    }
    fn progress(&mut self) {
        let calls = self.tally.calls();
        if calls / PROGRESS > self.told {
            self.told = calls / PROGRESS;
            let (lists, differences) = (self.tally.lists, self.tally.differences);
            let seconds = self.start.elapsed().as_secs();
            println!("{calls} calls in {lists} lists, differences: {differences}; {seconds} s");
        }
    }
}

fn number(word: Option<String>, otherwise: u64) -> u64 {
    word.map_or(otherwise, |w| w.parse().expect("usage: compare [CALLS] [SEED]"))
}

fn main() -> ExitCode {
    let mut words = std::env::args().skip(1);
    let (calls, seed) = (number(words.next(), CALLS), number(words.next(), SEED));
    println!("published source: {FILES} files, {BYTES} bytes, sum {SUM:016x}; {calls} calls, seeds from {seed} on");
    let mut comparison = Comparison { tally: Tally::default(), start: Instant::now(), told: 0 };
    comparison.lists("fixed", lists::fixed);
    let mut next = seed;
    while comparison.tally.calls() < calls && !comparison.ended() {
        comparison.lists(&format!("seed {next}"), || lists::made(next));
        next += 1;
    }
    let tally = &comparison.tally;
    println!("\n{tally}");
    let missing: Vec<_> = (1..=9).filter(|q| tally.refused(*q) == 0).collect();
    if !missing.is_empty() {
        println!("refusals that did not occur: {missing:?}");
    }
    let good = tally.differences == 0 && missing.is_empty();
    println!("{}", if good { "all agree" } else { "NOT all agree" });
    if good { ExitCode::SUCCESS } else { ExitCode::FAILURE }
}

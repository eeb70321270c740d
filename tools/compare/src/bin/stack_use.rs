//! How much stack our library's calls take: each on formulas of 511 nodes of every shape and on ledgers of three lengths, on a
//! stack that was filled with a pattern. Prints the most for each call.
use compare::library;
use compare::lists::{chains, largest};
use compare::normal::parts::{choices, nested, zero, zeros};
use compare::watched::watch::{Failure, Watch};
use compare::watched::worker;
use judge::call::{CALLS, Call};
use judge::formula::{AND, FF, Tree, leaf};
use judge::ledger::LONGEST;
use judge::random::SHAPES;
use judge::worst::{EMITTING, EXPONENTIAL, deep_calls, largest as largest_size, question};
use std::process::ExitCode;
use std::time::Duration;

const LENGTHS: [usize; 3] = [2_048, 65_536, LONGEST];
/// A call that takes longer is given up.
const LIMIT: Duration = Duration::from_secs(10);

/// Every call at the limits, and what it is asked.
fn calls() -> Vec<(String, Call)> {
    let mut out = deep_calls();
    for dims in [5, 100, 254] {
        for shape in SHAPES {
            out.extend(largest(shape, dims).into_iter().map(|call| (format!("{shape:?}, {dims} dimensions"), call)));
        }
    }
    out.extend(chains().into_iter().map(|call| ("a chain of neg".to_owned(), call)));
    for (words, family, _) in EXPONENTIAL.iter().chain(&EMITTING) {
        let n = largest_size(*family);
        out.push((format!("{words}, n {n}"), question(*family, n)));
    }
    out
}

/// Questions for a counterexample that determine as much as can be, in every shape.
fn questions() -> Vec<(String, usize, Tree, Tree)> {
    let mut out = vec![];
    for shape in SHAPES {
        let literals: Vec<_> = (0..256).map(|n| zero(n % 255)).collect();
        let (row, groups) = (nested(AND, shape, &literals), choices(0..127, shape));
        out.push((format!("256 literals to ff, {shape:?}"), 255, row.clone(), leaf(FF)));
        out.push((format!("256 literals to the same, {shape:?}"), 255, row.clone(), row));
        let goal = nested(AND, shape, &zeros(0, 127));
        out.push((format!("127 of i for i' to all zeros, {shape:?}"), 127, groups, goal));
    }
    out
}

/// The deepest run of something.
#[derive(Clone, Default)]
struct Deepest {
    depth: usize,
    length: usize,
    answer: String,
    what: String,
}

impl Deepest {
    fn see(&mut self, depth: usize, length: usize, answer: &str, what: &str) {
        if depth > self.depth {
            *self = Self { depth, length, answer: answer.to_owned(), what: what.to_owned() };
        }
    }
    fn print(&self, word: &str) {
        println!("| {word} | {} | {} | {} | {} |", self.what, self.length, self.answer, self.depth);
    }
}

#[derive(Default)]
struct Depths {
    /// By call, then well_formed and the desk on what the calls leave.
    calls: [Deepest; CALLS.len()],
    checks: [Deepest; 2],
    refuted: Deepest,
    runs: usize,
    given_up: Vec<String>,
}

impl Depths {
    fn run(&mut self, watch: &mut Watch, length: usize, what: &str, call: &Call) -> Result<(), Failure> {
        watch.ledger(length, &[])?;
        let asked = watch.depth(call)?;
        let answer = library::said(asked.number);
        let row = CALLS.iter().position(|s| s.name == call.name).expect("a call");
        self.calls[row].see(asked.depth, length, &answer, what);
        let what = format!("after {} {}, {what}", call.name.signature().word, call.number);
        for (deepest, depth) in self.checks.iter_mut().zip(watch.checks()?) {
            deepest.see(depth, length, "-", &what);
        }
        self.runs += 1;
        Ok(())
    }
}

fn main() -> ExitCode {
    if worker::served() {
        return ExitCode::SUCCESS;
    }
    let (mut watch, mut depths) = (Watch::new(LIMIT), Depths::default());
    for (what, call) in calls() {
        for length in LENGTHS {
            if let Err(failure) = depths.run(&mut watch, length, &what, &call) {
                let word = call.name.signature().word;
                depths.given_up.push(format!("{failure:?}: {word} {}, {what}, ledger {length}", call.number));
            }
        }
    }
    for (what, d, a, b) in questions() {
        match watch.refuted(d, &a.bytes(), &b.bytes()) {
            Ok(depth) => depths.refuted.see(depth, 0, "-", &what),
            Err(failure) => depths.given_up.push(format!("{failure:?}: counterexample {d}, {what}")),
        }
    }
    println!("{} calls on ledgers of {LENGTHS:?} bytes; for each call the one that touched most stack\n", depths.runs);
    println!("| call | input | ledger, bytes | answer | stack, bytes |\n|---|---|---|---|---|");
    CALLS.iter().zip(&depths.calls).for_each(|(s, deepest)| deepest.print(s.word));
    ["well_formed", "step_desk"].iter().zip(&depths.checks).for_each(|(word, deepest)| deepest.print(word));
    depths.refuted.print("counterexample");
    println!();
    depths.given_up.iter().for_each(|line| println!("given up after {} s, {line}", LIMIT.as_secs()));
    if depths.given_up.is_empty() { ExitCode::SUCCESS } else { ExitCode::FAILURE }
}

//! Counterexamples: ours beside every assignment on small faces, and beside what entails says on large ones.
//! usage: counterexamples [TRIPLES] [LARGE] [SEED]
use compare::counterexamples::asked::ask;
use compare::counterexamples::model::{self, Expected, Question, determined, in_order};
use compare::counterexamples::{broken, made};
use compare::lent::Lent;
use compare::stack::on_stack;
use compare::watched::watch::{Refuted, Watch};
use compare::watched::worker;
use judge::bench::load;
use judge::exhaustive::faces_up_to;
use judge::formula::Tree;
use judge::ledger::LONGEST;
use judge::meaning::{Assignment, UNDETERMINED, holds};
use judge::random::Random;
use judge::session::fresh;
use linefeijoa::bytes::entails;
use linefeijoa::limits::STACK_BYTES;
use published::{BYTES, FILES, SUM};
use std::collections::{BTreeMap, BTreeSet};
use std::process::ExitCode;
use std::time::{Duration, Instant};

const TRIPLES: u64 = 200_000;
const LARGE: u64 = 10_000;
const SEED: u64 = 1;
const MOST_DIFFERENCES: u64 = 10;
/// Triples asked in one thread.
const BATCH: usize = 1_000;
/// Small faces: every assignment of so many dimensions is tried, 2,187 of them.
const MOST_D: usize = 7;
const SMALL_LEAVES: usize = 24;
/// Every pair of faces of so many nodes over so many dimensions is asked.
const NODES: usize = 5;
const DIMENSIONS: usize = 2;
/// Large faces: a question that takes longer is given up, and counted.
const LIMIT: Duration = Duration::from_millis(500);
const LEAVES: usize = 256;

const PAIRS: &str = "pairs up to 5 nodes over 2 dimensions";
const RANDOM: &str = "random triples";
const BROKEN: &str = "questions that are broken";
const BESIDE: &str = "large faces beside entails";

#[derive(Default)]
struct Tally {
    /// Questions by part and answer.
    answers: BTreeMap<(&'static str, String), u64>,
    /// Calls with an output that is longer than d and written.
    longer: u64,
    /// Assignments that were written, by how many dimensions they determine.
    determined: BTreeMap<usize, u64>,
    /// Pairs of questions that one input breaks.
    pairs: BTreeMap<(u8, u8), u64>,
    differences: u64,
}

impl Tally {
    fn count(&self, part: &str) -> u64 {
        self.answers.iter().filter(|((p, _), _)| *p == part).map(|(_, n)| n).sum()
    }
    fn note(&mut self, part: &'static str, answer: String) {
        *self.answers.entry((part, answer)).or_default() += 1;
    }
    fn written(&mut self, at: &[u8], room: usize) {
        self.longer += u64::from(at.len() < room);
        *self.determined.entry(determined(at)).or_default() += 1;
    }
    fn ended(&self) -> bool {
        self.differences >= MOST_DIFFERENCES
    }
    fn differs(&mut self, name: &str, d: u64, a: &[u8], b: &[u8], difference: &str) {
        self.differences += 1;
        if self.differences <= MOST_DIFFERENCES {
            println!("\nDIFFERENCE in {name}: {difference}\n  d {d}\n  a {a:?}\n  b {b:?}");
        }
    }
    fn ask(&mut self, part: &'static str, name: &str, question: &Question, want: &Expected) {
        self.note(part, want.as_ref().map_or_else(|refusal| format!("refused {refusal}"), |_| "an assignment".into()));
        if let Ok(at) = want {
            self.written(at, question.room);
        }
        if let Err(difference) = ask(question, want) {
            self.differs(name, question.d, question.a, question.b, &difference);
        }
    }
    fn told(&self, part: &'static str, begin: Instant) {
        let seconds = begin.elapsed().as_secs();
        println!("{part}: {}, differences so far {}; {seconds} s", self.count(part), self.differences);
    }
}

/// Every pair of small faces, in an output that is just long enough or longer; some also in one that is too short.
fn every_pair(tally: &mut Tally) {
    let begin = Instant::now();
    let all = in_order(&(0..DIMENSIONS).collect::<Vec<_>>());
    let table = |f: &Tree| all.iter().map(|at| holds(f, at)).collect::<Vec<_>>();
    let faces: Vec<_> = faces_up_to(NODES, DIMENSIONS as u8).iter().map(|f| (f.bytes(), table(f))).collect();
    on_stack(STACK_BYTES, PAIRS, || {
        for (i, (a, at_a)) in faces.iter().enumerate() {
            if tally.ended() {
                return;
            }
            for (j, (b, at_b)) in faces.iter().enumerate() {
                let question = |room| Question { d: DIMENSIONS as u64, a, b, room };
                let least = (0..all.len()).find(|k| at_a[*k] && !at_b[*k]).map(|k| all[k][..DIMENSIONS].to_vec());
                let room = DIMENSIONS + [0, 1, 0, 38][(i + 3 * j) % 4];
                tally.ask(PAIRS, PAIRS, &question(room), &least.ok_or(12));
                if (i + j).is_multiple_of(8) {
                    tally.ask(PAIRS, PAIRS, &question(j % DIMENSIONS), &Err(6));
                }
            }
        }
    });
    tally.told(PAIRS, begin);
}

/// An output of exactly d bytes, and another one.
fn rooms(random: &mut Random, d: usize) -> [usize; 2] {
    let more = d + random.between(1, 300);
    [d, *random.pick(&[d.saturating_sub(1), 0, more, more])]
}

/// Random triples by their seeds, beside all assignments.
fn triples(tally: &mut Tally, most: u64, seed: u64) {
    let (begin, mut next, mut asked) = (Instant::now(), seed, 0);
    let orders: Vec<Vec<Assignment>> = (0..=MOST_D).map(|d| in_order(&(0..d).collect::<Vec<_>>())).collect();
    while asked < most && !tally.ended() {
        let (mut random, name) = (Random::new(next), format!("{RANDOM} of seed {next}"));
        on_stack(STACK_BYTES, &name, || {
            for _ in 0..BATCH {
                let d = random.between(0, MOST_D);
                let most = random.between(1, SMALL_LEAVES);
                let grouped = d > 0 && random.chance(40);
                let maker = if grouped { made::groups } else { made::question };
                let (a, b) = maker(&mut random, most, d);
                let least = if a.bound().max(b.bound()) > d {
                    Err(8)
                } else {
                    model::first(&orders[d], &a, &b).map(|at| at[..d].to_vec()).ok_or(12)
                };
                let (a, b) = (a.bytes(), b.bytes());
                for room in rooms(&mut random, d) {
                    let want = if room < d { Err(6) } else { least.clone() };
                    tally.ask(RANDOM, &name, &Question { d: d as u64, a: &a, b: &b, room }, &want);
                }
            }
        });
        asked += BATCH as u64;
        next += 1;
    }
    println!("{asked} triples, each asked with two outputs");
    tally.told(RANDOM, begin);
}

/// Operands, numbers and outputs in every combination: the first question that is broken is answered.
fn doors(tally: &mut Tally) {
    let (begin, operands) = (Instant::now(), broken::operands());
    for a in &operands {
        for b in &operands {
            if tally.ended() {
                return;
            }
            fresh(|| {
                for d in broken::NUMBERS {
                    for room in broken::rooms(d) {
                        let question = Question { d, a, b, room };
                        let met = model::broken(&question);
                        for (i, p) in met.iter().enumerate() {
                            met[i + 1..].iter().for_each(|q| *tally.pairs.entry((*p, *q)).or_default() += 1);
                        }
                        tally.ask(BROKEN, BROKEN, &question, &model::expected(&question));
                    }
                }
            });
        }
    }
    tally.told(BROKEN, begin);
}

/// A ledger of the longest length, put back after each call.
struct Ledger(Vec<u8>);

impl Ledger {
    fn entails(&mut self, d: usize, a: &[u8], b: &[u8]) -> i64 {
        let answer = entails(&mut self.0, d as u64, a, b);
        let used = 4 + u32::from_le_bytes(self.0[..4].try_into().expect("four bytes")) as usize;
        self.0[..used].fill(0);
        answer
    }
}

/// Whether an assignment satisfies a and not b and has no dimension that could be left out; what is wrong else.
fn refutes(out: &[u8], d: usize, a: &Tree, b: &Tree) -> Result<(), String> {
    let mut at = model::of_bytes(&out[..d]);
    if at.iter().any(|value| *value > UNDETERMINED) {
        return Err("a byte that is no value".into());
    }
    if !holds(a, &at) {
        return Err("the assignment does not satisfy a".into());
    }
    if holds(b, &at) {
        return Err("the assignment satisfies b".into());
    }
    for n in 0..d {
        let value = std::mem::replace(&mut at[n], UNDETERMINED);
        if value < UNDETERMINED && holds(a, &at) {
            return Err(format!("dimension {n} need not be determined"));
        }
        at[n] = value;
    }
    Ok(())
}

/// What is wrong with an answer, where entails says this.
fn compared(said: &Refuted, verdict: i64, d: usize, a: &Tree, b: &Tree) -> Result<(), String> {
    let before = Lent::pattern(said.out.len(), said.out.len());
    let written = if said.number < 0 { 0 } else { d };
    if !said.kept || said.out[written..] != before.content()[written..] {
        return Err("a byte changed that should stay".into());
    }
    let right = match verdict {
        -7 => said.number == -12 || said.number == d as i64,
        -9 => said.number == d as i64,
        -8 => said.number == -8,
        step => step >= 0 && said.number == -12,
    };
    if !right {
        return Err(format!("answered {}, entails answers {verdict}", said.number));
    }
    if said.number < 0 { Ok(()) } else { refutes(&said.out, d, a, b) }
}

/// A large question by its number: loads of W14, many small groups that all have to hold, and faces of any shape by chance.
fn large(number: u64) -> (usize, Tree, Tree) {
    let mut random = Random::new(!number);
    if number.is_multiple_of(10) {
        let (d, leaves) = (*random.pick(&[8, 64]), *random.pick(&[16, 32, 64, 128, 256]));
        let seed = (number / 10) as u32;
        return (d as usize, load(seed, leaves, d), load(seed + 1_000, leaves, d));
    }
    let d = *random.pick(&[3, 8, 16, 32, 64, 128, 255]);
    let most = *random.pick(&[20, 60, 120, LEAVES, LEAVES]);
    let (a, b) = match number % 10 {
        1 | 2 => made::groups(&mut random, most, d),
        _ => made::question(&mut random, most, d),
    };
    (d, a, b)
}

/// Large faces beside entails, on an empty ledger of the longest length.
fn beside(tally: &mut Tally, most: u64, seed: u64) {
    let begin = Instant::now();
    let (mut watch, mut ledger) = (Watch::new(LIMIT), Ledger(vec![0; LONGEST]));
    for number in (seed..).take(most as usize) {
        if tally.ended() {
            break;
        }
        let (d, a, b) = large(number);
        let (x, y) = (a.bytes(), b.bytes());
        let room = d + (number % 3) as usize * 20;
        let Ok(said) = watch.counterexample(1, room, d, &x, &y) else {
            tally.note(BESIDE, format!("given up after {} ms", LIMIT.as_millis()));
            continue;
        };
        let verdict = on_stack(STACK_BYTES, BESIDE, || ledger.entails(d, &x, &y));
        let words = match (verdict, said.number) {
            (-7, number) => {
                format!("{}, entails 7", if number < 0 { "refused 12" } else { "an assignment" })
            }
            (_, number) if number < 0 => format!("refused {}", -number),
            _ => "an assignment".into(),
        };
        tally.note(BESIDE, words);
        if said.number >= 0 {
            tally.written(&said.out[..d], room);
        }
        if let Err(difference) = compared(&said, verdict, d, &a, &b) {
            tally.differs(&format!("{BESIDE}, number {number}"), d as u64, &x, &y, &difference);
        }
    }
    tally.told(BESIDE, begin);
}

/// What did not occur, without which too little is shown.
fn missing(tally: &Tally) -> Vec<String> {
    let met: BTreeSet<_> = tally.answers.keys().map(|(part, answer)| (*part, answer.as_str())).collect();
    let owed = [
        (PAIRS, &["an assignment", "refused 6", "refused 12"][..]),
        (RANDOM, &["an assignment", "refused 6", "refused 8", "refused 12"]),
        (BROKEN, &["an assignment", "refused 2", "refused 3", "refused 4", "refused 6", "refused 8", "refused 12"]),
        (BESIDE, &["an assignment", "refused 12"]),
    ];
    let answers = owed.iter().flat_map(|(part, all)| all.iter().map(move |answer| (*part, *answer)));
    let answers = answers.filter(|owed| !met.contains(owed)).map(|(part, answer)| format!("{part}: {answer}"));
    let fewest = (0..=MOST_D).filter(|n| !tally.determined.contains_key(n)).map(|n| format!("{n} determined"));
    let pairs = broken::PAIRS.iter().filter(|pair| !tally.pairs.contains_key(pair));
    answers.chain(fewest).chain(pairs.map(|(p, q)| format!("{p} and {q} at once"))).collect()
}

fn main() -> ExitCode {
    if worker::served() {
        return ExitCode::SUCCESS;
    }
    let usage = "usage: counterexamples [TRIPLES] [LARGE] [SEED]";
    let mut words = std::env::args().skip(1).map(|w| w.parse().expect(usage));
    let mut word = |otherwise| words.next().unwrap_or(otherwise);
    let (most, most_large, seed) = (word(TRIPLES), word(LARGE), word(SEED));
    println!("published source: {FILES} files, {BYTES} bytes, sum {SUM:016x}; seeds from {seed} on");
    let mut tally = Tally::default();
    doors(&mut tally);
    every_pair(&mut tally);
    triples(&mut tally, most, seed);
    beside(&mut tally, most_large, seed);
    println!("\n| part | answer | calls |\n|---|---|---|");
    tally.answers.iter().for_each(|((part, answer), n)| println!("| {part} | {answer} | {n} |"));
    let pairs: Vec<_> = tally.pairs.iter().map(|((p, q), n)| format!("{p} and {q}: {n}")).collect();
    println!("\ninputs that break two questions at once, the lower one answered: {}", pairs.join(", "));
    let fewest: Vec<_> = tally.determined.iter().map(|(n, count)| format!("{n}: {count}")).collect();
    println!("assignments by how many dimensions they determine: {}", fewest.join(", "));
    println!("assignments in outputs that are longer, the bytes behind as they were: {}", tally.longer);
    let missing = missing(&tally);
    if !missing.is_empty() {
        println!("did not occur: {}", missing.join("; "));
    }
    let calls: u64 = tally.answers.values().sum();
    println!("{calls} calls, differences: {}", tally.differences);
    if tally.differences == 0 && missing.is_empty() { ExitCode::SUCCESS } else { ExitCode::FAILURE }
}

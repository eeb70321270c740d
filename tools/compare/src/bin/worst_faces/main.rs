//! A search for questions on which our library takes long: the known worst families, random ones, and climbing from both by
//! measured time, each on an empty ledger of the longest length. Fails if one takes over two seconds.
//! usage: worst_faces [FACES] [SEED] [NODES] [SECONDS]
use compare::library;
use compare::listings::smaller::{operands, smallest_within};
use compare::plain::steps::{Plain, records};
use compare::questions::{Question, mutant, random_question};
use compare::watched::watch::{Asked, Watch};
use compare::watched::worker;
use judge::call::Answer;
use judge::formula::{Sort, read_whole};
use judge::ledger::{self, LONGEST};
use judge::random::Random;
use judge::session::fresh;
use judge::text::{HEX, call_line};
use judge::worst::{EMITTING, EXPONENTIAL, deep_calls};
use std::process::ExitCode;
use std::time::{Duration, Instant};

const FACES: usize = 20_000;
const SEED: usize = 1;
const NODES: usize = 511;
/// No question is begun after so many seconds.
const SECONDS: usize = 560;
/// What takes longer is too long, and after the limit it is given up.
const TOO_LONG: Duration = Duration::from_secs(2);
const LIMIT: Duration = Duration::from_secs(4);
/// After so many that took too long the search stops.
const MOST_FAILURES: usize = 3;
/// How long a smaller form of such a one is looked for.
const PATIENCE: Duration = Duration::from_secs(60);
/// Of a hundred questions so many are by chance; from the slowest of these and the families others climb.
const BY_CHANCE: usize = 30;
const CLIMBERS: usize = 24;

/// Bounds of the rows of times, in microseconds.
const BOUNDS: [u64; 11] = [100, 300, 1_000, 3_000, 10_000, 30_000, 100_000, 300_000, 1_000_000, 2_000_000, u64::MAX];

#[derive(Clone)]
struct Found {
    question: Question,
    asked: Asked,
}

struct Search {
    watch: Watch,
    random: Random,
    most_nodes: usize,
    most: usize,
    begin: Instant,
    patience: Duration,
    tried: usize,
    counts: [usize; BOUNDS.len()],
    worst: Option<Found>,
    failures: usize,
}

impl Search {
    fn ended(&self) -> bool {
        self.tried >= self.most || self.failures >= MOST_FAILURES || self.begin.elapsed() > self.patience
    }
    /// One call on the empty ledger; None where it was given up.
    fn ask(&mut self, question: &Question) -> Option<Asked> {
        let asked = self.watch.ask(&question.call());
        asked.and_then(|asked| self.watch.back().map(|()| asked)).ok()
    }
    fn is_slow(&mut self, question: &Question) -> bool {
        self.ask(question).is_none_or(|asked| asked.time > TOO_LONG)
    }
    /// The question with less in it that still takes too long.
    fn smallest(&mut self, question: &Question) -> Question {
        let read = |bytes: &[u8]| read_whole(bytes, Sort::Face);
        let candidates = |bytes: &[u8]| operands(Sort::Face, bytes);
        let (mut small, begin) = (question.clone(), Instant::now());
        let left = || PATIENCE.saturating_sub(begin.elapsed());
        for _ in 0..2 {
            let a = smallest_within(left(), &small.a.bytes(), candidates, |a| {
                read(a).is_some_and(|a| self.is_slow(&Question { a, b: small.b.clone() }))
            });
            small.a = read(&a).expect("a face");
            let b = smallest_within(left(), &small.b.bytes(), candidates, |b| {
                read(b).is_some_and(|b| self.is_slow(&Question { a: small.a.clone(), b }))
            });
            small.b = read(&b).expect("a face");
        }
        small
    }
    fn fail(&mut self, question: &Question, asked: Option<Asked>) {
        self.failures += 1;
        let time = asked.map_or(format!("over {} s, given up", LIMIT.as_secs()), |a| format!("{:?}", a.time));
        println!("\nTOO LONG, {time}: {}", question.text());
        println!("  {}", call_line(&question.call(), HEX));
        let small = self.smallest(question);
        println!("a smaller one that takes over {} s: {}", TOO_LONG.as_secs(), small.text());
        println!("  {}", call_line(&small.call(), HEX));
    }
    /// Measures one question, twice if it is slow for its kind, and counts it.
    fn measure(&mut self, question: &Question, record: Duration) -> Option<Found> {
        self.tried += 1;
        let mut asked = self.ask(question);
        if asked.is_some_and(|a| a.time > record) {
            let again = self.ask(question);
            asked = asked.zip(again).map(|(a, b)| if a.time < b.time { a } else { b });
        }
        let micros = asked.map_or(u64::MAX, |a| a.time.as_micros() as u64);
        let row = BOUNDS.iter().position(|bound| micros <= *bound).expect("a row");
        self.counts[row] += 1;
        if asked.is_none_or(|a| a.time > TOO_LONG) {
            self.fail(question, asked);
        }
        let found = Found { question: question.clone(), asked: asked? };
        if self.worst.as_ref().is_none_or(|w| found.asked.time > w.asked.time) {
            self.worst = Some(found.clone());
        }
        Some(found)
    }
    /// The known worst ones: the families at the largest size, at half of it and at a quarter, and the deepest entailments.
    fn known(&mut self) -> Vec<Found> {
        let mut all: Vec<_> = deep_calls().iter().filter_map(|(_, call)| Question::of(call)).collect();
        for (_, family, _) in EXPONENTIAL.iter().chain(&EMITTING) {
            let question = |n: usize| {
                let (a, b) = family(n);
                Question { a, b }
            };
            let most = (1..).take_while(|n| question(*n).fits(self.most_nodes)).last().unwrap_or(1);
            all.extend([most, most.div_ceil(2), most.div_ceil(4)].map(question));
        }
        all.retain(|question| question.fits(self.most_nodes));
        all.iter().filter_map(|q| if self.ended() { None } else { self.measure(q, Duration::ZERO) }).collect()
    }
    /// The slowest of many by chance.
    fn by_chance(&mut self) -> Vec<Found> {
        let mut out: Vec<Found> = vec![];
        for _ in 0..self.most * BY_CHANCE / 100 {
            if self.ended() {
                break;
            }
            let question = random_question(&mut self.random, self.most_nodes);
            out.extend(self.measure(&question, Duration::MAX));
            out.sort_by_key(|f| std::cmp::Reverse(f.asked.time));
            out.truncate(CLIMBERS);
        }
        out
    }
    /// Each in turn is changed, and stays changed where that takes longer.
    fn climb(&mut self, mut climbers: Vec<Found>) -> Vec<Found> {
        let mut turn = 0;
        while !self.ended() && !climbers.is_empty() {
            let i = turn % climbers.len();
            turn += 1;
            let donor = self.random.pick(&climbers).question.clone();
            let next = mutant(&climbers[i].question, &donor, &mut self.random, self.most_nodes);
            let record = climbers[i].asked.time;
            if let Some(found) = self.measure(&next, record).filter(|f| f.asked.time > record) {
                climbers[i] = found;
            }
        }
        climbers
    }
    /// Whether the answer and the ledger are those of the plain list of steps.
    fn is_right(&mut self, found: &Found) -> bool {
        let call = found.question.call();
        let (number, used) = fresh(|| {
            let mut plain = Plain::remembering(LONGEST, vec![]);
            let answer: Answer = plain.ask(&call);
            (library::number(&answer), ledger::whole(&records(&plain.steps)))
        });
        let right = self.watch.ask(&call).map(|a| a.number) == Ok(number) && self.watch.used() == Ok(used);
        if !right {
            println!("\nANOTHER ANSWER OR LEDGER than expected, {}: {}", library::said(number), found.question.text());
        }
        self.watch.back().is_ok() && right
    }
    fn print(&self) {
        let seconds = self.begin.elapsed().as_secs();
        println!("\n{} of {} questions, {seconds} s\n\n| time up to | questions |\n|---|---|", self.tried, self.most);
        for (bound, count) in BOUNDS.iter().zip(&self.counts) {
            let words = if *bound == u64::MAX { "more".into() } else { format!("{} ms", *bound as f64 / 1e3) };
            println!("| {words} | {count} |");
        }
        if let Some(Found { question, asked }) = &self.worst {
            println!(
                "\nthe worst took {:.1} ms: {}, {} steps, {} bytes\n{}\n  {}",
                asked.time.as_secs_f64() * 1e3,
                library::said(asked.number),
                asked.steps,
                asked.used,
                question.text(),
                call_line(&question.call(), HEX)
            );
        }
    }
}

fn main() -> ExitCode {
    if worker::served() {
        return ExitCode::SUCCESS;
    }
    let usage = "usage: worst_faces [FACES] [SEED] [NODES] [SECONDS]";
    let mut words = std::env::args().skip(1).map(|w| w.parse::<usize>().expect(usage));
    let mut word = |otherwise| words.next().unwrap_or(otherwise);
    let (most, seed, most_nodes, seconds) = (word(FACES), word(SEED), word(NODES), word(SECONDS));
    println!(
        "{most} questions of up to {most_nodes} nodes a face, seed {seed}, each on an empty ledger of {LONGEST} bytes"
    );
    let mut search = Search {
        watch: Watch::new(LIMIT),
        random: Random::new(seed as u64),
        most_nodes,
        most,
        begin: Instant::now(),
        patience: Duration::from_secs(seconds as u64),
        tried: 0,
        counts: [0; BOUNDS.len()],
        worst: None,
        failures: 0,
    };
    search.watch.ledger(LONGEST, &[]).expect("a process for the calls");
    let mut climbers = search.known();
    climbers.extend(search.by_chance());
    let climbers = search.climb(climbers);
    search.print();
    let right = climbers.iter().filter(|found| search.is_right(found)).count();
    println!(
        "\nof {} that were climbed to, the plain list of steps has the answer and ledger of {right}",
        climbers.len()
    );
    let good = search.failures == 0 && right == climbers.len();
    if search.tried < most {
        println!("NOT all were tried: {} of {most}", search.tried);
    }
    println!("{}", if good { "none of them is too long" } else { "NOT good" });
    if good { ExitCode::SUCCESS } else { ExitCode::FAILURE }
}

//! Times of our library's calls beside the published Rust's: the same inputs,
//! in one run, in turn. Prints tables for docs/BENCHMARK.md.
use compare::expected::whole;
use compare::lent::Lent;
use compare::library;
use compare::watched::worker;
use judge::bench::*;
use judge::call::{Call, Name};
use judge::fixed::{dim, ff, ft, or, zero};
use judge::formula::{AND, pair};
use judge::ledger::{self, LONGEST, Step};
use judge::session::{Session, drive, fresh};
use published::cubical::engine::face_frontend::FaceProducer;
use std::time::{Duration, Instant};

mod worst;

/// The time that one row may take, both sides together.
const BUDGET: Duration = Duration::from_millis(200);

/// One row: both times, where there are such, and what the call did.
struct Cells {
    ours: Option<Duration>,
    rust: Option<Duration>,
    steps: usize,
    bytes: usize,
    answer: String,
}

/// Ours over the Rust's.
fn ratio(ours: Duration, rust: Duration) -> f64 {
    ours.as_nanos() as f64 / rust.as_nanos().max(1) as f64
}

/// A session on a ledger of this length that holds these steps.
fn session(before: &[Step], length: usize) -> Session {
    let mut records = vec![];
    before.iter().for_each(|s| ledger::write_record(s, &mut records));
    Session { length, producer: holding(before), records, wanted: 4 }
}

/// Our side: a ledger that is put back before every call.
struct Ours {
    call: Call,
    before: Vec<u8>,
    ledger: Vec<u8>,
    outputs: Vec<Lent>,
}

impl Ours {
    fn new(call: &Call, before: Vec<u8>) -> Self {
        let outputs = call.rooms.iter().map(|room| Lent::zeros(*room)).collect();
        Self { call: call.clone(), ledger: before.clone(), before, outputs }
    }
    /// One timed call; the copy is not timed.
    fn timed(&mut self) -> (Duration, i64) {
        self.ledger.copy_from_slice(&self.before);
        let start = Instant::now();
        let answer = library::ask(&mut self.ledger, &self.call, &mut self.outputs);
        (start.elapsed(), answer)
    }
}

/// Both sides in turn, so that they meet the same load of the machine. The
/// Rust has a fresh producer each time, and all terms in its table already.
fn measure(call: &Call, before: &[Step], length: usize) -> Cells {
    let mut known = session(before, length);
    let mut ours = Ours::new(call, whole(&known.used(), length));
    let used = known.used().len();
    let number = library::number(&known.ask(call).0);
    let (slow, answer) = ours.timed();
    assert_eq!(answer, number, "another answer than the Rust's: {call:?}");
    assert!(ours.ledger == whole(&known.used(), length), "another ledger than the Rust's: {call:?}");
    let call = ready(call);
    let round = slow + timed(holding(before), &call).0;
    let repeats = (BUDGET.as_nanos() / round.as_nanos().max(1)).clamp(5, 2_000);
    let (mut our_times, mut rust_times) = (vec![], vec![]);
    for _ in 0..repeats {
        our_times.push(ours.timed().0);
        rust_times.push(timed(holding(before), &call).0);
    }
    Cells {
        ours: Some(median(our_times)),
        rust: Some(median(rust_times)),
        steps: known.steps().len() - before.len(),
        bytes: known.used().len() - used,
        answer: library::said(number),
    }
}

/// All ratios, for the summary.
struct Table {
    ratios: Vec<(f64, String)>,
}

impl Table {
    fn heading(&self, title: &str) {
        println!("\n{title}\n");
        println!("| call | ledger, bytes | answer | new steps | new bytes | ours, µs | Rust, µs | ratio |");
        println!("|---|---|---|---|---|---|---|---|");
    }
    fn row(&mut self, what: &str, call: &Call, before: Before, length: usize) {
        let cells = fresh(|| measure(call, &before(), length));
        self.print(what, length, &cells);
    }
    fn print(&mut self, what: &str, length: usize, cells: &Cells) {
        let ratio = cells.ours.zip(cells.rust).map(|(ours, rust)| ratio(ours, rust));
        self.ratios.extend(ratio.map(|ratio| (ratio, format!("{what}, ledger {length}"))));
        let time = |time: Option<Duration>| time.map_or("-".into(), |t| format!("{:.1}", micros(t)));
        println!(
            "| {what} | {length} | {} | {} | {} | {} | {} | {} |",
            cells.answer,
            cells.steps,
            cells.bytes,
            time(cells.ours),
            time(cells.rust),
            ratio.map_or("-".into(), |ratio| format!("{ratio:.2}"))
        );
    }
    /// A row on an empty ledger whose length is the lowest power of two that holds the steps.
    fn fitting(&mut self, what: &str, call: &Call) {
        self.row(what, call, &nothing, fresh(|| fitting_length(call)));
    }
    fn summary(&mut self) {
        self.ratios.sort_by(|a, b| a.0.total_cmp(&b.0));
        let (least, most) = (&self.ratios[0], &self.ratios[self.ratios.len() - 1]);
        println!(
            "\n{} rows with both times. Median of the ratios {:.2};",
            self.ratios.len(),
            self.ratios[self.ratios.len() / 2].0
        );
        println!("the least {:.2} ({}), the largest {:.2} ({}).", least.0, least.1, most.0, most.1);
    }
}

/// The steps that a row's ledger holds before, made on the measuring thread.
type Before<'a> = &'a (dyn Fn() -> Vec<Step> + Sync);

fn nothing() -> Vec<Step> {
    vec![]
}

/// At least 2,048.
fn fitting_length(call: &Call) -> usize {
    let mut session = Session::new(LONGEST);
    session.ask(call);
    session.used().len().next_power_of_two().clamp(2_048, LONGEST)
}

fn small_rows(table: &mut Table) {
    table.heading("Small questions on an empty ledger");
    for length in [2_048, 65_536, LONGEST] {
        small_calls().iter().for_each(|(what, call)| table.row(what, call, &nothing, length));
    }
}

/// The steps of a grown ledger after one call more.
fn asked(call: &Call) -> Vec<Step> {
    let mut producer = holding(&grown(10_000));
    drive(&mut producer, &ready(call)).unwrap();
    producer.path.p.steps
}

/// The check of a ledger alone.
fn checked(before: &[Step], length: usize) -> Cells {
    let ledger = whole(&session(before, length).used(), length);
    let timed = |_| {
        let start = Instant::now();
        std::hint::black_box(library::well_formed(&ledger));
        start.elapsed()
    };
    Cells {
        ours: Some(median((0..500).map(timed).collect())),
        rust: None,
        steps: 0,
        bytes: 0,
        answer: format!("{} steps", library::well_formed(&ledger)),
    }
}

fn grown_rows(table: &mut Table) {
    let ten_thousand = || grown(10_000);
    let used = fresh(|| session(&ten_thousand(), LONGEST).used().len());
    table.heading(&format!("Small questions on a ledger of some 10,000 steps ({used} bytes used)"));
    let calls = small_calls();
    for length in [used + 2_048, LONGEST] {
        calls[..4].iter().for_each(|(what, call)| table.row(what, call, &ten_thousand, length));
        table.row("the second of them, asked again", &calls[1].1, &|| asked(&calls[1].1), length);
        table.print("the check alone (lf_well_formed)", length, &fresh(|| checked(&ten_thousand(), length)));
    }
}

fn load_rows(table: &mut Table) {
    table.heading("Loads over d 8 (W14, seed 1; for entails the seed given and the next), on an empty ledger");
    for leaves in [16, 32, 64, 128, 256] {
        let f = load(1, leaves, 8);
        let r = as_interval(&f);
        let mut row = |what: &str, call: &Call| table.fitting(&format!("{what}, {leaves} leaves"), call);
        row("face", &on(Name::Face, 8, &f));
        row("interval", &on(Name::Interval, 8, &r));
        row("boundary", &on(Name::Boundary, 0, &r));
        row("forall 3", &on(Name::Forall, 3, &f));
        row("face-shift 3", &on(Name::FaceShift, 3, &f));
        row("interval-shift 3", &on(Name::IntervalShift, 3, &r));
        row("face-substitute dim 9 for 3", &Call::new(Name::FaceSubstitute, 3, &[&f, &dim(9)]));
        row("interval-substitute dim 9 for 3", &Call::new(Name::IntervalSubstitute, 3, &[&r, &dim(9)]));
        let (zero, _) = judge::operations::boundary(&r);
        row("endpoint, where it is zero", &Call::endpoint(8, &zero, &r, false));
        let (seed, call) = true_load(leaves);
        row(&format!("entails, seed {seed}"), &call);
    }
}

fn conjunction_rows(table: &mut Table) {
    table.heading("Long conjunctions of different dimensions, left-deep, d 255, on an empty ledger");
    for n in [16, 64, 128, 256] {
        let last = zero(((n - 1) % 255) as u8);
        let call = Call::new(Name::Entails, 255, &[&conjunction(0..n), &last]);
        table.fitting(&format!("{n} literals to the last"), &call);
    }
    for n in [16, 32, 64] {
        let call = Call::new(Name::Entails, 255, &[&conjunction(0..n), &conjunction((0..n).rev())]);
        table.fitting(&format!("{n} literals to the same turned round"), &call);
    }
    for n in [8, 10, 12] {
        let a = (1..n).fold(or(ft(), ft()), |a, _| pair(AND, or(ft(), ft()), a));
        let call = Call::new(Name::Entails, 0, &[&a, &or(ff(), ft())]);
        table.fitting(&format!("{n} times (ft for ft), to ff for ft"), &call);
    }
}

/// A ledger that grows to its limit: the times of each call, ours and the Rust's.
struct Growth {
    times: Vec<(Duration, Duration)>,
    steps: usize,
    bytes: usize,
}

/// Each call once on both sides, until the next does not fit.
fn grow() -> Growth {
    let mut producer = FaceProducer::default();
    let mut ledger = vec![0; LONGEST];
    let (mut times, mut records, mut steps) = (vec![], vec![], 0);
    for call in growing_calls() {
        let start = Instant::now();
        let answer = library::ask(&mut ledger, &call, &mut []);
        let ours = start.elapsed();
        let (rust, said, after) = timed(producer, &ready(&call));
        producer = after;
        let kept = records.len();
        producer.path.p.steps[steps..].iter().for_each(|s| ledger::write_record(s, &mut records));
        if 4 + records.len() > LONGEST {
            assert_eq!(answer, -7, "the call that does not fit");
            records.truncate(kept);
            break;
        }
        let number = said.map_or(-9, |(step, _)| step as i64);
        assert_eq!(answer, number, "another answer than the Rust's: {call:?}");
        times.push((ours, rust));
        steps = producer.path.p.steps.len();
    }
    let used = ledger::whole(&records);
    assert!(ledger == whole(&used, LONGEST), "another ledger than the Rust's");
    Growth { times, steps, bytes: used.len() }
}

fn growth_row(what: &str, times: &[(Duration, Duration)]) {
    let ours: Duration = times.iter().map(|t| t.0).sum();
    let rust: Duration = times.iter().map(|t| t.1).sum();
    let mean = |all: Duration| micros(all) / times.len() as f64;
    println!("| {what} | {} | {:.1} | {:.1} | {:.2} |", times.len(), mean(ours), mean(rust), ratio(ours, rust));
}

fn growth_rows() {
    let growth = fresh(grow);
    let count = growth.times.len();
    println!("\nA ledger of {LONGEST} bytes that grows to its limit: entails between loads of 8 leaves over d 8,");
    println!("seeds 1, 2, .. whose search needs at most 200 covers, each asked once, until the next does not fit;");
    println!("at the end {} steps and {} bytes\n", growth.steps, growth.bytes);
    println!("| calls | count | ours, mean µs | Rust, mean µs | ratio |");
    println!("|---|---|---|---|---|");
    growth_row("the first tenth", &growth.times[..count / 10]);
    growth_row("the last tenth", &growth.times[count - count / 10..]);
    growth_row("all", &growth.times);
}

fn main() {
    if worker::served() {
        return;
    }
    println!("Times of our library and of the published Rust (release build) on the same inputs, in one run, in turn;");
    println!("medians. Ours takes bytes, asks all the questions and writes the ledger's bytes; the Rust has its trees");
    println!("built already, a fresh producer that holds the ledger's steps, and all terms in its table already.");
    let mut table = Table { ratios: vec![] };
    small_rows(&mut table);
    grown_rows(&mut table);
    load_rows(&mut table);
    conjunction_rows(&mut table);
    growth_rows();
    worst::rows(&mut table);
    table.summary();
}

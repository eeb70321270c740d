//! Time of the Rust alone, per call: the baseline for later ratios. Document
//! 02's W14 says how the loads are made, so that others can make the same.
use crate::call::{Answer, Call, Name};
use crate::cost;
use crate::door;
use crate::fixed::*;
use crate::formula::*;
use crate::ledger::{self, LONGEST, Step};
use crate::session::{Prepared, Said, Session, drive, fresh, prepare};
use published::cubical::engine::face_frontend::FaceProducer;
use std::time::{Duration, Instant};

/// W14's generator of faces.
struct Load {
    state: u32,
    d: u32,
}

impl Load {
    fn draw(&mut self, modulo: u32) -> u32 {
        self.state = self.state.wrapping_mul(1_664_525).wrapping_add(1_013_904_223);
        (self.state >> 16) % modulo
    }
    fn face(&mut self, leaves: u32) -> Tree {
        if leaves > 1 {
            let kind = if self.draw(2) == 0 { AND } else { OR };
            let left = self.draw(leaves - 1) + 1;
            let a = self.face(left);
            return pair(kind, a, self.face(leaves - left));
        }
        match self.draw(if self.d == 0 { 2 } else { 4 }) as u8 {
            kind @ (AT0 | AT1) => at(kind, self.draw(self.d) as u8),
            kind => leaf(kind),
        }
    }
}

pub fn load(seed: u32, leaves: u32, d: u32) -> Tree {
    Load { state: seed, d }.face(leaves)
}

/// The interval of the same shape.
pub fn as_interval(t: &Tree) -> Tree {
    let kind = [I0, I1, DIM, DIM, MEET, JOIN][usize::from(t.kind)];
    Tree { kind, dim: t.dim, parts: t.parts.iter().map(as_interval).collect() }
}

/// A call that the door lets in, as the Rust takes it.
pub fn ready(call: &Call) -> Prepared {
    let seen = door::admit(call).unwrap_or_else(|q| panic!("refused {q}: {call:?}"));
    prepare(call, &seen.operands)
}

/// A producer that already holds these steps.
pub fn holding(steps: &[Step]) -> FaceProducer {
    let mut producer = FaceProducer::default();
    for (rule, refs, judgement) in steps {
        producer.path.p.emit(rule, refs.clone(), judgement.clone());
    }
    producer
}

/// One timed run; the producer goes back to the caller to be dropped untimed.
pub fn timed(mut producer: FaceProducer, call: &Prepared) -> (Duration, Said, FaceProducer) {
    let start = Instant::now();
    let said = drive(&mut producer, call);
    (start.elapsed(), said, producer)
}

pub fn median(mut times: Vec<Duration>) -> Duration {
    times.sort_unstable();
    times[times.len() / 2]
}

/// The ledger that a row starts from, built on the measuring thread.
type Before<'a> = &'a (dyn Fn() -> Vec<Step> + Sync);

/// The time in a fresh thread, whose table of terms is empty.
fn first_time(call: &Call, before: Before) -> Duration {
    let once = || fresh(|| timed(holding(&before()), &ready(call)).0);
    median((0..5).map(|_| once()).collect())
}

struct Row {
    again: Duration,
    steps: usize,
    bytes: usize,
    answer: String,
}

/// The time with all terms known to the table already, the ledger as before.
fn again(call: &Call, before: Before) -> Row {
    fresh(|| {
        let (old, call) = (before(), ready(call));
        let (slow, said, producer) = timed(holding(&old), &call);
        let mut bytes = vec![];
        let new = &producer.path.p.steps[old.len()..];
        new.iter().for_each(|s| ledger::write_record(s, &mut bytes));
        let repeats = (Duration::from_millis(60).as_nanos() / slow.as_nanos().max(1)).clamp(5, 2_000);
        let times = (0..repeats).map(|_| timed(holding(&old), &call).0).collect();
        let answer = said.map_or("no".into(), |(n, _)| format!("yes {n}"));
        Row { again: median(times), steps: new.len(), bytes: bytes.len(), answer }
    })
}

pub fn micros(time: Duration) -> f64 {
    time.as_nanos() as f64 / 1_000.0
}

fn print_row(what: &str, call: &Call, before: Before) {
    let first = first_time(call, before);
    let row = again(call, before);
    let each = if row.steps == 0 { 0.0 } else { row.again.as_nanos() as f64 / row.steps as f64 };
    println!(
        "| {what} | {} | {} | {} | {:.1} | {:.1} | {each:.0} |",
        row.answer,
        row.steps,
        row.bytes,
        micros(first),
        micros(row.again)
    );
}

fn heading(title: &str) {
    println!("\n{title}\n");
    println!("| call | answer | new steps | new bytes | first, µs | again, µs | again, ns a step |");
    println!("|---|---|---|---|---|---|---|");
}

pub fn on(name: Name, number: usize, f: &Tree) -> Call {
    Call::new(name, number, &[f])
}

pub fn small_calls() -> Vec<(&'static str, Call)> {
    let (a, b) = distribute();
    let entails = |d, a: Tree, b: Tree| Call::new(Name::Entails, d, &[&a, &b]);
    vec![
        ("entails 1, 0 to ft", entails(1, zero(0), ft())),
        ("entails 2, 0 fand (1 for 1') to (0 fand 1) for (0 fand 1')", entails(2, a, b)),
        ("entails 1, 0 fand 0' to ff", entails(1, and(zero(0), one(0)), ff())),
        ("entails 1, ft to 0 for 0'", entails(1, ft(), or(zero(0), one(0)))),
        (
            "endpoint 1, 0, meet (dim 0) (neg (dim 0)), i0",
            Call::endpoint(1, &zero(0), &meet(dim(0), not(dim(0))), false),
        ),
        ("boundary of meet (dim 0) (neg (dim 0))", on(Name::Boundary, 0, &meet(dim(0), not(dim(0))))),
        ("forall 1 of 0 for (1' fand 2)", on(Name::Forall, 1, &or(zero(0), and(one(1), zero(2))))),
        ("face-shift 1 of 0 for 1", on(Name::FaceShift, 1, &or(zero(0), zero(1)))),
        (
            "face-substitute join (dim 3) i0 for 0 in 0'",
            Call::new(Name::FaceSubstitute, 0, &[&one(0), &join(dim(3), leaf(I0))]),
        ),
    ]
}

/// A ledger of at least so many steps, grown by forall and shift on loads.
pub fn grown(count: usize) -> Vec<Step> {
    let mut producer = FaceProducer::default();
    for seed in 1.. {
        let f = load(seed, 32, 8);
        drive(&mut producer, &ready(&on(Name::Forall, 5, &f))).unwrap();
        drive(&mut producer, &ready(&on(Name::FaceShift, 5, &f))).unwrap();
        if producer.path.p.steps.len() >= count {
            break;
        }
    }
    producer.path.p.steps
}

fn nothing() -> Vec<Step> {
    vec![]
}

fn small_rows() {
    heading("Small questions on an empty ledger");
    small_calls().iter().for_each(|(what, call)| print_row(what, call, &nothing));
    heading("Small questions on a ledger of some 10,000 steps");
    let calls = small_calls();
    calls[..4].iter().for_each(|(what, call)| print_row(what, call, &|| grown(10_000)));
    let asked = || {
        let mut producer = holding(&grown(10_000));
        drive(&mut producer, &ready(&small_calls()[1].1)).unwrap();
        producer.path.p.steps
    };
    print_row("the second of them, asked again", &calls[1].1, &asked);
}

fn load_entails(seed: u32, leaves: u32) -> Call {
    Call::new(Name::Entails, 8, &[&load(seed, leaves, 8), &load(seed + 1, leaves, 8)])
}

/// Whether an entailment holds, needs a search worth timing, and fits a ledger.
fn worth_timing(seed: u32, leaves: u32) -> bool {
    let (a, b) = (load(seed, leaves, 8), load(seed + 1, leaves, 8));
    let (verdict, cost) = cost::search(&a, &b, 20_000);
    verdict == Some(true)
        && cost.covers >= u64::from(leaves)
        && fresh(|| matches!(Session::new(LONGEST).ask(&load_entails(seed, leaves)).0, Answer::Yes(..)))
}

/// The first seed whose entailment is worth timing.
pub fn true_load(leaves: u32) -> (u32, Call) {
    let seed = (1..).find(|seed| worth_timing(*seed, leaves)).unwrap();
    (seed, load_entails(seed, leaves))
}

fn load_rows() {
    heading("Loads over d 8 (W14, seed 1; for entails the seed given and the next)");
    for leaves in [16, 32, 64, 128, 256] {
        let f = load(1, leaves, 8);
        let r = as_interval(&f);
        let row = |what: &str, call: &Call| print_row(&format!("{what}, {leaves} leaves"), call, &nothing);
        row("face", &on(Name::Face, 8, &f));
        row("boundary", &on(Name::Boundary, 0, &r));
        row("forall 3", &on(Name::Forall, 3, &f));
        row("face-shift 3", &on(Name::FaceShift, 3, &f));
        row("interval-shift 3", &on(Name::IntervalShift, 3, &r));
        row("face-substitute dim 9 for 3", &Call::new(Name::FaceSubstitute, 3, &[&f, &dim(9)]));
        let (seed, call) = true_load(leaves);
        row(&format!("entails, seed {seed}"), &call);
    }
}

/// Literals of dimensions 0, 1, 2, .. in a left-deep conjunction.
pub fn conjunction(dims: impl Iterator<Item = usize>) -> Tree {
    dims.map(|n| zero((n % 255) as u8)).reduce(and).unwrap()
}

fn conjunction_rows() {
    heading("Long conjunctions of different dimensions, left-deep, d 255");
    for n in [16, 64, 128, 256] {
        let a = conjunction(0..n);
        let last = zero(((n - 1) % 255) as u8);
        print_row(&format!("{n} literals to the last"), &Call::new(Name::Entails, 255, &[&a, &last]), &nothing);
    }
    for n in [16, 32, 64] {
        let call = Call::new(Name::Entails, 255, &[&conjunction(0..n), &conjunction((0..n).rev())]);
        print_row(&format!("{n} literals to the same turned round"), &call, &nothing);
    }
    for n in [8, 10, 12] {
        let a = (1..n).fold(or(ft(), ft()), |a, _| and(or(ft(), ft()), a));
        let call = Call::new(Name::Entails, 0, &[&a, &or(ff(), ft())]);
        print_row(&format!("{n} times (ft for ft), to ff for ft"), &call, &nothing);
    }
}

/// Entailments between loads of 8 leaves whose search is short.
pub fn growing_calls() -> impl Iterator<Item = Call> {
    (1..).filter_map(|seed| {
        let (a, b) = (load(seed, 8, 8), load(seed + 1, 8, 8));
        cost::search(&a, &b, 200).0?;
        Some(Call::new(Name::Entails, 8, &[&a, &b]))
    })
}

struct Growth {
    times: Vec<Duration>,
    steps: usize,
    bytes: usize,
}

fn grow() -> Growth {
    let mut producer = FaceProducer::default();
    let (mut times, mut bytes, mut steps) = (vec![], vec![], 0);
    for call in growing_calls() {
        let (time, _, after) = timed(producer, &ready(&call));
        producer = after;
        let kept = bytes.len();
        producer.path.p.steps[steps..].iter().for_each(|s| ledger::write_record(s, &mut bytes));
        if 4 + bytes.len() > LONGEST {
            bytes.truncate(kept);
            break;
        }
        times.push(time);
        steps = producer.path.p.steps.len();
    }
    Growth { times, steps, bytes: 4 + bytes.len() }
}

fn growth_rows() {
    let growth = fresh(grow);
    let count = growth.times.len();
    let mean = |times: &[Duration]| micros(times.iter().sum::<Duration>()) / times.len() as f64;
    println!(
        "\nA ledger that grows to its limit: entails between loads of 8 leaves over d 8, seeds 1, 2, .. whose search needs at most 200 covers, until the next does not fit {LONGEST} bytes\n"
    );
    println!("| calls | steps | bytes | all calls, ms | mean of the first tenth, µs | mean of the last tenth, µs |");
    println!("|---|---|---|---|---|---|");
    println!(
        "| {count} | {} | {} | {:.1} | {:.1} | {:.1} |",
        growth.steps,
        growth.bytes,
        micros(growth.times.iter().sum()) / 1_000.0,
        mean(&growth.times[..count / 10]),
        mean(&growth.times[count - count / 10..])
    );
}

pub fn print() {
    println!(
        "Time of the published Rust alone (release build, one thread; medians; building the trees is not counted)."
    );
    println!(
        "\"first\" is in a fresh thread, whose table of terms is empty; \"again\" is with a fresh producer and all terms in the table already."
    );
    small_rows();
    load_rows();
    conjunction_rows();
    growth_rows();
}

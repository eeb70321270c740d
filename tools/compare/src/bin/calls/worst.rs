//! The rows of the worst questions, each on the longest ledger: on an empty one, asked a second time, behind questions that
//! share their searches, and on a full one. Our call is made in a process of its own and given up after a limit.
//! Where the Rust would not end, the plain list of steps says what should be answered and written.
use crate::{Cells, Table, session};
use compare::library;
use compare::plain::steps::{self, Plain};
use compare::watched::watch::{Asked, Failure, Watch};
use judge::bench::{grown, holding, median, ready, timed};
use judge::call::{Call, Name};
use judge::cost;
use judge::door;
use judge::ledger::{self, LONGEST};
use judge::operations;
use judge::session::fresh;
use judge::worst::{EMITTING, EXPONENTIAL, Family, deep_calls, largest, question};
use std::time::Duration;

/// A call of ours that takes longer is given up.
const LIMIT: Duration = Duration::from_secs(5);
/// The time that the repeated calls of one row may take.
const BUDGET: Duration = Duration::from_millis(500);
/// The Rust is asked where its search enters cover so often at most.
const MOST_COVERS: u64 = 300_000;

/// What a row asks: the last call, on the ledger that holds these steps and the other calls' steps.
struct Question {
    what: String,
    start: Vec<u8>,
    before: Vec<Call>,
    call: Call,
}

impl Question {
    fn new(what: &str, call: Call) -> Self {
        Self { what: what.into(), start: vec![], before: vec![], call }
    }
    /// The same on the ledger that it leaves.
    fn again(&self) -> Self {
        let before = [&self.before[..], &[self.call.clone()]].concat();
        Self {
            what: format!("{}, a second time", self.what),
            start: self.start.clone(),
            before,
            call: self.call.clone(),
        }
    }
    fn calls(&self) -> impl Iterator<Item = &Call> {
        self.before.iter().chain([&self.call])
    }
}

/// What should be answered and be in the ledger, and how long the Rust took.
struct Judged {
    number: i64,
    used: Vec<u8>,
    steps: usize,
    bytes: usize,
    rust: Option<Duration>,
}

/// Whether the Rust's search ends soon, if the call has one.
fn affordable(call: &Call) -> bool {
    let t = door::admit(call).expect("a call that is let in").operands;
    let ends = |goal| cost::search(&t[0], goal, MOST_COVERS).0.is_some();
    match call.name {
        Name::Entails => ends(&t[1]),
        Name::Endpoint => {
            let (zero, one) = operations::boundary(&t[1]);
            ends(if call.one { &one } else { &zero })
        }
        _ => true,
    }
}

fn judged_by_rust(question: &Question) -> Judged {
    let start = ledger::read(&ledger::whole(&question.start)).expect("a ledger");
    let mut known = session(&start, LONGEST);
    question.before.iter().for_each(|call| drop(known.ask(call)));
    let (before, bytes) = (known.steps().to_vec(), known.used().len());
    let number = library::number(&known.ask(&question.call).0);
    let rust = timed(holding(&before), &ready(&question.call)).0;
    let (steps, used) = (known.steps().len() - before.len(), known.used());
    Judged { number, steps, bytes: used.len() - bytes, used, rust: Some(rust) }
}

fn judged_plainly(question: &Question) -> Judged {
    let mut plain = Plain::remembering(LONGEST, steps::read(&question.start));
    question.before.iter().for_each(|call| drop(plain.ask(call)));
    let (before, bytes) = (plain.steps.len(), plain.used);
    let number = library::number(&plain.ask(&question.call));
    let used = ledger::whole(&steps::records(&plain.steps));
    Judged { number, steps: plain.steps.len() - before, bytes: used.len() - bytes, used, rust: None }
}

/// The first time, and the median of some.
fn asked(watch: &mut Watch, question: &Question) -> Result<(Asked, Duration), Failure> {
    watch.ledger(LONGEST, &question.start)?;
    for call in &question.before {
        watch.ask(call)?;
    }
    let first = watch.ask(&question.call)?;
    let repeats = (BUDGET.as_nanos() / first.time.as_nanos().max(1)).clamp(1, 200);
    let mut times = vec![first.time];
    for _ in 1..repeats {
        watch.back()?;
        times.push(watch.ask(&question.call)?.time);
    }
    Ok((first, median(times)))
}

/// Prints a row; whether our call came to its end.
fn row(table: &mut Table, watch: &mut Watch, question: &Question) -> bool {
    let judged =
        fresh(|| if question.calls().all(affordable) { judged_by_rust(question) } else { judged_plainly(question) });
    let ours = asked(watch, question);
    let said = library::said(judged.number);
    let answer = match ours {
        Ok((first, _)) => {
            assert_eq!(first.number, judged.number, "another answer than expected: {}", question.what);
            assert!(watch.used() == Ok(judged.used), "another ledger than expected: {}", question.what);
            said
        }
        Err(Failure::Late) => format!("{said}: GIVEN UP after {} s", LIMIT.as_secs()),
        Err(Failure::Died) => format!("{said}: THE PROCESS ENDED"),
    };
    let cells = Cells {
        answer,
        steps: judged.steps,
        bytes: judged.bytes,
        ours: ours.ok().map(|(_, time)| time),
        rust: judged.rust,
    };
    table.print(&question.what, LONGEST, &cells);
    cells.ours.is_some()
}

/// The family's name with its size for n.
fn sized(words: &str, n: usize) -> String {
    if words.starts_with("n ") { words.replacen('n', &n.to_string(), 1) } else { format!("{words}, n {n}") }
}

fn repeating() -> Vec<Question> {
    let mut out = vec![];
    for (words, family, _) in EXPONENTIAL {
        let sizes = if words.contains("(ft for ft), to ff") || words.contains("(0 for 0)") {
            vec![16, 32, 64, 127]
        } else {
            vec![largest(family)]
        };
        out.extend(sizes.into_iter().map(|n| Question::new(&sized(words, n), question(family, n))));
    }
    for (words, family, _) in EMITTING {
        let n = largest(family);
        out.push(Question::new(&sized(words, n), question(family, n)));
    }
    out
}

/// The largest of a family behind one that is smaller by one group, with whose searches it shares most.
fn behind(words: &str, family: Family) -> Question {
    let n = largest(family);
    let what = format!("{}, behind the same with {}", sized(words, n), n - 1);
    Question { before: vec![question(family, n - 1)], ..Question::new(&what, question(family, n)) }
}

/// A ledger of other calls' steps with less than so many bytes left.
fn full(room: usize) -> Vec<u8> {
    let mut records = vec![];
    for step in &grown(25_000) {
        let kept = records.len();
        ledger::write_record(step, &mut records);
        if 4 + records.len() + room > LONGEST {
            records.truncate(kept);
            break;
        }
    }
    records
}

fn on_full_ledgers() -> Vec<Question> {
    let all = deep_calls();
    let (what, face) = all.iter().find(|(_, call)| call.name == Name::Face).expect("a face");
    let on = |room: usize| Question {
        start: fresh(|| full(room)),
        ..Question::new(&format!("face 255, {what}, {room} bytes and some left"), face.clone())
    };
    vec![on(0), on(100_000), on(400_000)]
}

pub fn rows(table: &mut Table) {
    let mut watch = Watch::new(LIMIT);
    let mut both = |table: &mut Table, question: &Question| {
        if row(table, &mut watch, question) {
            row(table, &mut watch, &question.again());
        }
    };
    table.heading("The worst searches, on an empty ledger, and asked a second time");
    repeating().iter().for_each(|q| both(table, q));
    table.heading("Searches behind others that they share most of their steps with");
    EXPONENTIAL.iter().for_each(|(words, family, _)| both(table, &behind(words, *family)));
    table.heading("Calls at the limits, 511 nodes an operand, on an empty ledger");
    for (what, call) in deep_calls() {
        row(
            table,
            &mut watch,
            &Question::new(&format!("{} {}, {what}", call.name.signature().word, call.number), call),
        );
    }
    table.heading("A face that ends in 7, on a ledger that holds other steps");
    on_full_ledgers().iter().for_each(|q| {
        row(table, &mut watch, q);
    });
}

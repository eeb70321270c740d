//! What the Rust said, held against document 01's meanings, against plain
//! operations on trees, and against the rules; with counts of what was compared.
use crate::call::{Answer, CALLS, Call, Name, Number};
use crate::desk::Desk;
use crate::door::Admitted;
use crate::formula::{I0, I1, Tree, leaf, read_whole};
use crate::ledger::{self, Step, expression};
use crate::meaning::{self, Reach};
use crate::operations;
use crate::rules::RULES;
use crate::session::Session;
use published::cubical::engine::term::{FastSet, Sexp, call as expr, numeral};
use std::fmt;

#[derive(Default)]
pub struct Tally {
    pub lists: u64,
    pub calls: [u64; CALLS.len()],
    pub yes: u64,
    pub refused: [u64; 12],
    pub steps: u64,
    pub bytes: u64,
    pub kinds: Vec<u64>,
    /// Verdicts of entails and endpoint: by all assignments, by least ones, a
    /// yes by its derivation alone, a no by nothing.
    pub by_assignments: u64,
    pub by_clauses: u64,
    pub by_derivation: u64,
    pub unconfirmed: u64,
    /// Result formulas: all assignments, some of them.
    pub results_all: u64,
    pub results_some: u64,
    /// Answers with the number of a step that an earlier call left.
    pub old_numbers: u64,
    /// Calls refused by 8 or 9 that left new steps.
    pub left_steps: u64,
    /// Operands of more than 255 nodes, and of a dimension above 127.
    pub large: u64,
    pub high: u64,
    pub differences: Vec<String>,
}

impl Tally {
    pub fn add(&mut self, other: Tally) {
        self.lists += other.lists;
        self.yes += other.yes;
        self.steps += other.steps;
        self.bytes += other.bytes;
        self.by_assignments += other.by_assignments;
        self.by_clauses += other.by_clauses;
        self.by_derivation += other.by_derivation;
        self.unconfirmed += other.unconfirmed;
        self.results_all += other.results_all;
        self.results_some += other.results_some;
        self.old_numbers += other.old_numbers;
        self.left_steps += other.left_steps;
        self.large += other.large;
        self.high += other.high;
        add_all(&mut self.calls, &other.calls);
        add_all(&mut self.refused, &other.refused);
        self.kinds.resize(RULES.len() + 1, 0);
        add_all(&mut self.kinds, &other.kinds);
        self.differences.extend(other.differences);
    }
    pub fn kinds_seen(&self) -> usize {
        self.kinds.iter().filter(|n| **n > 0).count()
    }
    /// Counts a difference unless the claim is true.
    fn claim(&mut self, holds: bool, what: &str, call: &Call, answer: &Answer) {
        if !holds {
            self.differences.push(format!("{what}: {call:?} answered {answer:?}"));
        }
    }
}

fn add_all(to: &mut [u64], from: &[u64]) {
    to.iter_mut().zip(from).for_each(|(a, b)| *a += b);
}

/// The judgement that a call emits last.
fn own_judgement(call: &Call, seen: &Admitted) -> Sexp {
    let formulas: Vec<_> = seen.operands.iter().map(expression).collect();
    let results: Vec<_> = seen.results.iter().map(expression).collect();
    let number = numeral(call.number);
    // f, k, r if any, result.
    let operation = |name| {
        let mut parts = vec![formulas[0].clone(), number.clone()];
        parts.extend(formulas[1..].iter().cloned());
        parts.extend(results.iter().cloned());
        expr(name, parts)
    };
    let with_d = |name, last: Option<Sexp>| {
        expr(name, [number.clone()].into_iter().chain(formulas.iter().cloned()).chain(last).collect::<Vec<_>>())
    };
    match call.name {
        Name::Face => with_d("face", None),
        Name::Interval => with_d("interval", None),
        Name::Entails => with_d("entails", None),
        Name::Endpoint => with_d("local", Some(expression(&leaf(if call.one { I1 } else { I0 })))),
        Name::Boundary => expr("boundary", [formulas[0].clone(), results[0].clone(), results[1].clone()]),
        Name::Forall => operation("fforall"),
        Name::FaceShift => operation("fshift"),
        Name::IntervalShift => operation("ishift"),
        Name::FaceSubstitute => operation("fsubst"),
        Name::IntervalSubstitute => operation("isubst"),
    }
}

/// Whether the implication of entails or endpoint holds, and how that is known.
fn verdict(call: &Call, t: &[Tree], tally: &mut Tally) -> Option<bool> {
    let goal = match call.name {
        Name::Entails => t[1].clone(),
        _ => {
            let (zero, one) = operations::boundary(&t[1]);
            if call.one { one } else { zero }
        }
    };
    let found = match call.name {
        Name::Entails => meaning::entails(&t[0], &t[1]),
        _ => meaning::local(&t[0], &t[1], call.one),
    };
    if found.is_some() {
        tally.by_assignments += 1;
        return found;
    }
    let found = meaning::entails_by_clauses(&t[0], &goal);
    tally.by_clauses += u64::from(found.is_some());
    found
}

/// Whether a result formula means what document 01 says.
fn meant(call: &Call, t: &[Tree], out: &[Tree]) -> (bool, Reach) {
    let k = call.number as u8;
    match call.name {
        Name::Boundary => meaning::boundary(&t[0], &out[0], &out[1]),
        Name::Forall => meaning::forall(&t[0], k, &out[0]),
        Name::FaceShift | Name::IntervalShift => meaning::shift(&t[0], k, &out[0]),
        _ => meaning::substitute(&t[0], k, &t[1], &out[0]),
    }
}

fn check_results(call: &Call, answer: &Answer, seen: &Admitted, results: &[Vec<u8>], tally: &mut Tally) {
    let plain: Vec<_> = seen.results.iter().map(Tree::bytes).collect();
    tally.claim(plain == results, "another result than the plain operation's", call, answer);
    let sort = seen.results[0].sort();
    let read = |b: &Vec<u8>| read_whole(b, sort).expect("the Rust's result is a formula");
    let out: Vec<_> = results.iter().map(read).collect();
    let (good, reach) = meant(call, &seen.operands, &out);
    tally.claim(good, "a result that means something else", call, answer);
    match reach {
        Reach::All => tally.results_all += 1,
        Reach::Some => tally.results_some += 1,
    }
}

/// 8 where a dimension is not below d, 9 where the implication fails, else yes.
fn check_verdict(call: &Call, answer: &Answer, seen: &Admitted, tally: &mut Tally) {
    let takes_d = call.name.signature().number == Number::D;
    let high = takes_d && seen.operands.iter().any(|t| t.bound() > call.number);
    if high || *answer == Answer::Refused(8) {
        let eight = high && *answer == Answer::Refused(8);
        tally.claim(eight, "8 and the dimensions disagree", call, answer);
        return;
    }
    let yes = matches!(answer, Answer::Yes(..));
    if !matches!(call.name, Name::Entails | Name::Endpoint) {
        tally.claim(yes, "a refusal of a call that can't fail", call, answer);
    } else if let Some(holds) = verdict(call, &seen.operands, tally) {
        tally.claim(holds == yes, "a verdict against the meaning", call, answer);
    } else {
        // Too many assignments: the desk still checks how a yes was derived.
        tally.by_derivation += u64::from(yes);
        tally.unconfirmed += u64::from(!yes);
    }
}

/// Counts what the lists are meant to bring about.
fn note(answer: &Answer, seen: &Admitted, before: usize, after: usize, tally: &mut Tally) {
    match answer {
        Answer::Yes(step, _) => tally.old_numbers += u64::from(*step < before),
        Answer::Refused(_) => tally.left_steps += u64::from(after > before),
    }
    tally.large += seen.operands.iter().filter(|t| t.nodes() > 255).count() as u64;
    tally.high += seen.operands.iter().filter(|t| t.bound() > 128).count() as u64;
}

/// Asks, counts, and checks the answer.
pub fn ask(session: &mut Session, call: &Call, tally: &mut Tally) -> Answer {
    let before = (session.steps().len(), session.records.len());
    let (answer, seen) = session.ask(call);
    let row = CALLS.iter().position(|s| s.name == call.name).unwrap();
    tally.calls[row] += 1;
    match &answer {
        Answer::Yes(..) => tally.yes += 1,
        Answer::Refused(q) => tally.refused[*q] += 1,
    }
    if matches!(answer, Answer::Refused(1..=7)) {
        let same = before == (session.steps().len(), session.records.len());
        tally.claim(same, "a refusal that left steps", call, &answer);
        return answer;
    }
    let seen = seen.expect("an answer after the door");
    note(&answer, &seen, before.0, session.steps().len(), tally);
    check_verdict(call, &answer, &seen, tally);
    if let Answer::Yes(step, results) = &answer {
        let own = session.steps()[*step].2 == own_judgement(call, &seen);
        tally.claim(own, "a step number of another judgement", call, &answer);
        if !results.is_empty() {
            check_results(call, &answer, &seen, results, tally);
        }
    }
    answer
}

/// The ledger at the end of a list: read back from its bytes, no judgement
/// twice, every step by its rule.
pub fn finish(session: &Session, desk: &Desk, tally: &mut Tally) {
    let steps = session.steps();
    tally.lists += 1;
    tally.steps += steps.len() as u64;
    tally.bytes += 4 + session.records.len() as u64;
    tally.kinds.resize(RULES.len() + 1, 0);
    steps.iter().for_each(|s| tally.kinds[ledger::kind(&s.0)] += 1);
    let mut wrong = |what: String| tally.differences.push(what);
    match ledger::read(&session.used()) {
        Some(read) if read == steps => {}
        Some(_) => wrong("the bytes read back as other steps".into()),
        None => wrong(format!("a ledger that is not well formed, {} steps", steps.len())),
    }
    if repeated(steps) {
        wrong("a judgement stands twice".into());
    }
    if let Some(step) = desk.first_failing(steps) {
        wrong(format!("step {step} does not follow: {:?}", steps[step]));
    }
}

fn repeated(steps: &[Step]) -> bool {
    let mut known = FastSet::default();
    !steps.iter().all(|s| known.insert(s.2.clone()))
}

/// Runs a list from an empty ledger; its answers and its ledger's used part.
pub fn run(length: usize, calls: &[Call], desk: &Desk, tally: &mut Tally) -> (Vec<Answer>, Vec<u8>) {
    let mut session = Session::new(length);
    let answers = calls.iter().map(|c| ask(&mut session, c, tally)).collect();
    finish(&session, desk, tally);
    (answers, session.used())
}

impl fmt::Display for Tally {
    fn fmt(&self, f: &mut fmt::Formatter<'_>) -> fmt::Result {
        let calls: u64 = self.calls.iter().sum();
        writeln!(f, "  {} lists, {calls} calls, {} steps, {} ledger bytes", self.lists, self.steps, self.bytes)?;
        let names = CALLS.iter().zip(self.calls).map(|(s, n)| format!("{} {n}", s.word));
        writeln!(f, "  calls: {}", names.collect::<Vec<_>>().join(", "))?;
        let refused = (1..12).filter(|q| self.refused[*q] > 0).map(|q| format!("{q}: {}", self.refused[q]));
        writeln!(f, "  answers: yes {}, refused {}", self.yes, refused.collect::<Vec<_>>().join(", "))?;
        writeln!(
            f,
            "  verdicts confirmed: {} by all assignments, {} by least assignments, {} yes by the derivation alone; {} no unconfirmed",
            self.by_assignments, self.by_clauses, self.by_derivation, self.unconfirmed
        )?;
        writeln!(
            f,
            "  results confirmed: {} by all assignments, {} by 200 assignments",
            self.results_all, self.results_some
        )?;
        writeln!(
            f,
            "  {} answers with an older step's number, {} failing calls that left steps, {} operands over 255 nodes, {} with dimensions over 127",
            self.old_numbers, self.left_steps, self.large, self.high
        )?;
        write!(f, "  kinds seen: {} of 75; differences: {}", self.kinds_seen(), self.differences.len())
    }
}

//! One list of calls: one producer of the published Rust, so that its ledger
//! grows, with document 01's door in front and its bytes behind.
use crate::call::{Answer, Call, Name};
use crate::door::{self, Admitted};
use crate::formula::{AND, AT0, AT1, FF, FT, Tree};
use crate::ledger::{self, LONGEST, Step, expression};
use published::cubical::engine::face_frontend::{Face, FaceProducer};
use published::cubical::engine::path_frontend::Op;
use published::cubical::engine::term::Sexp;

/// Our tree as the Rust's own face.
pub fn rust_face(t: &Tree) -> Face {
    match t.kind {
        FF => Face::False,
        FT => Face::True,
        AT0 | AT1 => Face::End(usize::from(t.dim), t.kind == AT1),
        AND => rust_face(&t.parts[0]).and(rust_face(&t.parts[1])),
        _ => rust_face(&t.parts[0]).or(rust_face(&t.parts[1])),
    }
}

/// A call with its operands as the Rust's trees, ready to run.
pub enum Prepared {
    Face(usize, Face),
    Interval(usize, Sexp),
    Boundary(Sexp),
    Endpoint(usize, Face, Sexp, bool),
    Forall(Face, usize),
    FaceTransform(Sexp, Op),
    IntervalTransform(Sexp, Op),
    Entails(usize, Face, Face),
}

pub fn prepare(call: &Call, operands: &[Tree]) -> Prepared {
    let (n, first) = (call.number, &operands[0]);
    let substitution = || Op::DSubst(n, expression(&operands[1]));
    match call.name {
        Name::Face => Prepared::Face(n, rust_face(first)),
        Name::Interval => Prepared::Interval(n, expression(first)),
        Name::Boundary => Prepared::Boundary(expression(first)),
        Name::Endpoint => Prepared::Endpoint(n, rust_face(first), expression(&operands[1]), call.one),
        Name::Forall => Prepared::Forall(rust_face(first), n),
        Name::FaceShift => Prepared::FaceTransform(expression(first), Op::DShift(n)),
        Name::IntervalShift => Prepared::IntervalTransform(expression(first), Op::DShift(n)),
        Name::FaceSubstitute => Prepared::FaceTransform(expression(first), substitution()),
        Name::IntervalSubstitute => Prepared::IntervalTransform(expression(first), substitution()),
        Name::Entails => Prepared::Entails(n, rust_face(first), rust_face(&operands[1])),
    }
}

/// What the Rust answered: the step's number and the results, or its words.
pub type Said = Result<(usize, Vec<Sexp>), String>;

/// The Rust's method of that name.
pub fn drive(p: &mut FaceProducer, call: &Prepared) -> Said {
    let only = |r: Result<usize, String>| r.map(|n| (n, vec![]));
    match call {
        Prepared::Face(d, f) => only(p.face(*d, f)),
        Prepared::Interval(d, r) => only(p.path.interval(*d, r)),
        Prepared::Boundary(r) => p.boundary(r).map(|(a, b, n)| (n, vec![a.quote(), b.quote()])),
        Prepared::Endpoint(d, phi, r, one) => only(p.endpoint(*d, phi, r, *one)),
        Prepared::Forall(f, k) => p.forall(f, *k).map(|(out, n)| (n, vec![out.quote()])),
        Prepared::FaceTransform(f, op) => p.path.ftransform(f, op).map(|(out, n)| (n, vec![out])),
        Prepared::IntervalTransform(r, op) => p.path.itransform(r, op).map(|(out, n)| (n, vec![out])),
        Prepared::Entails(d, a, b) => only(p.entails(*d, a, b)),
    }
}

/// The refusal that the Rust's words stand for.
fn refusal(words: &str) -> usize {
    if words == "false index comparison" {
        8
    } else if words.starts_with("face implication does not hold") {
        9
    } else {
        panic!("a failure that document 01 has no number for: {words}")
    }
}

pub struct Session {
    /// The ledger's length.
    pub length: usize,
    pub producer: FaceProducer,
    /// The records, without the four bytes in front.
    pub records: Vec<u8>,
    /// How many bytes the last call that was let in wanted the ledger to have.
    pub wanted: usize,
}

impl Session {
    pub fn new(length: usize) -> Self {
        Self { length, producer: FaceProducer::default(), records: vec![], wanted: 4 }
    }
    pub fn steps(&self) -> &[Step] {
        &self.producer.path.p.steps
    }
    /// L and the records.
    pub fn used(&self) -> Vec<u8> {
        ledger::whole(&self.records)
    }
    /// The answer to a call, and what the door read if it was let in.
    pub fn ask(&mut self, call: &Call) -> (Answer, Option<Admitted>) {
        if !(4..=LONGEST).contains(&self.length) {
            return (Answer::Refused(1), None);
        }
        match door::admit(call) {
            Err(question) => (Answer::Refused(question), None),
            Ok(admitted) => (self.run(call, &admitted), Some(admitted)),
        }
    }
    fn run(&mut self, call: &Call, admitted: &Admitted) -> Answer {
        let before = self.steps().len();
        let said = drive(&mut self.producer, &prepare(call, &admitted.operands));
        let kept = self.records.len();
        let producer = &self.producer;
        for step in &producer.path.p.steps[before..] {
            ledger::write_record(step, &mut self.records);
        }
        self.wanted = 4 + self.records.len();
        if self.wanted > self.length {
            self.records.truncate(kept);
            self.undo(before);
            return Answer::Refused(7);
        }
        match said {
            Ok((step, results)) => Answer::Yes(step, results.iter().map(formula_bytes).collect()),
            Err(words) => Answer::Refused(refusal(&words)),
        }
    }
    /// Question 7 leaves the ledger as it was: a fresh producer with the old
    /// steps, given to it through its own emit.
    fn undo(&mut self, count: usize) {
        let old = std::mem::take(&mut self.producer);
        for (rule, refs, judgement) in old.path.p.steps.into_iter().take(count) {
            self.producer.path.p.emit(&rule, refs, judgement);
        }
    }
}

fn formula_bytes(s: &Sexp) -> Vec<u8> {
    let mut out = vec![];
    ledger::write_formula(s, &mut out);
    out
}

/// Runs on a fresh thread: its own table of terms, and stack for deep calls.
pub fn fresh<T: Send>(work: impl FnOnce() -> T + Send) -> T {
    std::thread::scope(|scope| {
        let thread = std::thread::Builder::new().stack_size(512 << 20);
        let run = thread.spawn_scoped(scope, work).expect("a thread");
        run.join().unwrap_or_else(|panic| std::panic::resume_unwind(panic))
    })
}

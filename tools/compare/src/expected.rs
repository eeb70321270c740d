//! What the published Rust answers to a list, and what it leaves in the ledger. Where it can't hold the ledger, a plain list of
//! steps says it instead; elsewhere, if the ledger is not long, that must say the same.
use crate::plain::steps::{self, Plain};
use judge::bench::holding;
use judge::call::{Answer, Call};
use judge::desk::Desk;
use judge::door;
use judge::formula::Tree;
use judge::ledger::{self, LONGEST, Step};
use judge::session::Session;
use std::collections::HashSet;

/// In longer ledgers only the Rust is asked, if it can be: the plain list of steps looks through all of it for each step.
const LONGEST_PLAIN: usize = 65_536;

/// One byte of the ledger made another for one call: its place is the draw
/// modulo the used length and some bytes more.
#[derive(Clone, Copy, Debug)]
pub struct Damage {
    pub draw: usize,
    pub flip: u8,
}

#[derive(Clone)]
pub struct Item {
    pub call: Call,
    pub damage: Option<Damage>,
}

#[derive(Clone)]
pub struct List {
    pub length: usize,
    /// The records that the ledger holds beforehand, whoever wrote them; none of an empty one.
    pub start: Vec<u8>,
    pub items: Vec<Item>,
}

/// The ledger around a call with a damaged byte; it is put back afterwards.
pub struct Damaged {
    pub place: usize,
    pub byte: u8,
    /// The steps that the damaged bytes read as, if they are well formed.
    pub steps: Option<usize>,
    /// The whole slice after the call.
    pub after: Vec<u8>,
}

/// What is expected of one call.
pub struct Expected {
    pub answer: Answer,
    /// The Rust did not say it: a judgement stands twice in the ledger.
    pub twice: bool,
    /// The bytes 4 + L after it.
    pub used: usize,
    /// For refusals 6 and 7: how many bytes an output or the ledger lacked.
    pub lacked: usize,
    /// The steps before it and after it.
    pub before: usize,
    pub after: usize,
    pub damaged: Option<Damaged>,
}

/// What is expected of a list. Records are only ever added, so the last ones
/// hold those after every call.
pub struct Run {
    pub expected: Vec<Expected>,
    pub records: Vec<u8>,
    pub steps: usize,
    /// The number that the desk answers afterwards.
    pub desk: i64,
    /// How many calls the Rust and the plain list of steps were both asked.
    pub both: usize,
}

/// The first bytes, then zeros.
pub fn whole(used: &[u8], length: usize) -> Vec<u8> {
    let mut bytes = used[..used.len().min(length)].to_vec();
    bytes.resize(length, 0);
    bytes
}

/// The steps of a whole ledger; None where question 1 says no.
pub fn read(bytes: &[u8]) -> Option<Vec<Step>> {
    if !(4..=LONGEST).contains(&bytes.len()) {
        return None;
    }
    let used = 4 + u32::from_le_bytes(bytes[..4].try_into().unwrap()) as usize;
    let zeros = bytes.get(used..)?.iter().all(|b| *b == 0);
    if zeros { ledger::read(&bytes[..used]) } else { None }
}

/// A session that goes on from these steps; None if a judgement stands twice.
fn resumed(length: usize, steps: &[Step]) -> Option<Session> {
    let mut known = HashSet::new();
    if !steps.iter().all(|s| known.insert(&s.2)) {
        return None;
    }
    let mut records = vec![];
    steps.iter().for_each(|s| ledger::write_record(s, &mut records));
    Some(Session { length, producer: holding(steps), records, wanted: 4 })
}

/// Who says what should happen in one ledger; neither where question 1 says no.
struct Judges {
    length: usize,
    rust: Option<Session>,
    plain: Option<Plain>,
    both: usize,
}

impl Judges {
    fn new(bytes: &[u8]) -> Self {
        let mut judges = Self { length: bytes.len(), rust: None, plain: None, both: 0 };
        if let Some(found) = read(bytes) {
            judges.rust = resumed(bytes.len(), &found);
            if judges.rust.is_none() || bytes.len() <= LONGEST_PLAIN {
                let used = 4 + u32::from_le_bytes(bytes[..4].try_into().unwrap()) as usize;
                judges.plain = Some(Plain::new(bytes.len(), steps::read(&bytes[4..used])));
            }
        }
        judges
    }
    fn ask(&mut self, call: &Call) -> Answer {
        let rust = self.rust.as_mut().map(|s| s.ask(call).0);
        let plain = self.plain.as_mut().map(|p| p.ask(call));
        if rust.is_some() && plain.is_some() {
            assert_eq!(rust, plain, "the Rust and the plain list of steps: {call:?}");
            self.both += 1;
        }
        rust.or(plain).unwrap_or(Answer::Refused(1))
    }
    fn steps(&self) -> usize {
        match &self.rust {
            Some(rust) => rust.steps().len(),
            None => self.plain.as_ref().map_or(0, |p| p.steps.len()),
        }
    }
    fn used(&self) -> usize {
        match &self.rust {
            Some(rust) => 4 + rust.records.len(),
            None => self.plain.as_ref().map_or(4, |p| p.used),
        }
    }
    /// All records, which both must agree on.
    fn records(&self) -> Vec<u8> {
        let plain = self.plain.as_ref().map(|p| steps::records(&p.steps));
        let Some(rust) = &self.rust else { return plain.unwrap_or_default() };
        assert!(plain.is_none_or(|p| p == rust.records), "the records of the Rust and of the plain list of steps");
        rust.records.clone()
    }
    /// The whole slice.
    fn bytes(&self) -> Vec<u8> {
        whole(&ledger::whole(&self.records()), self.length)
    }
    /// How many bytes the last call lacked in the ledger, where the Rust said 7.
    fn lacked(&self) -> usize {
        self.rust.as_ref().map_or(0, |s| s.wanted - s.length)
    }
}

/// A call on a copy of the ledger with one byte changed.
fn ask_damaged(judges: &Judges, call: &Call, damage: Damage) -> Expected {
    let mut bytes = judges.bytes();
    let place = damage.draw % bytes.len().min(judges.used() + 16);
    bytes[place] ^= damage.flip;
    let byte = bytes[place];
    let mut others = Judges::new(&bytes);
    let well_formed = others.rust.is_some() || others.plain.is_some();
    let steps = well_formed.then(|| others.steps());
    let twice = well_formed && others.rust.is_none();
    let answer = others.ask(call);
    let after = if well_formed { others.bytes() } else { bytes };
    let now = judges.steps();
    let damaged = Some(Damaged { place, byte, steps, after });
    Expected { answer, twice, used: judges.used(), lacked: 0, before: now, after: now, damaged }
}

/// How many bytes the shortest output lacked.
fn output_lacked(call: &Call) -> usize {
    let roomy = Call { rooms: vec![usize::MAX; call.rooms.len()], ..call.clone() };
    let Ok(seen) = door::admit(&roomy) else { return 0 };
    let lacks = |(t, room): (&Tree, &usize)| t.bytes().len().saturating_sub(*room);
    seen.results.iter().zip(&call.rooms).map(lacks).max().unwrap_or(0)
}

fn ask_plainly(judges: &mut Judges, call: &Call) -> Expected {
    let before = judges.steps();
    let answer = judges.ask(call);
    let lacked = match answer {
        Answer::Refused(6) => output_lacked(call),
        Answer::Refused(7) => judges.lacked(),
        _ => 0,
    };
    let twice = judges.rust.is_none() && judges.plain.is_some();
    Expected { answer, twice, used: judges.used(), lacked, before, after: judges.steps(), damaged: None }
}

/// The desk's number: all steps where only calls made them, else by document 01's rules.
fn desk(list: &List, judges: &Judges) -> i64 {
    if judges.rust.is_none() && judges.plain.is_none() {
        return -1;
    }
    let failing = if list.start.is_empty() {
        None
    } else {
        Desk::default().first_failing(&read(&judges.bytes()).expect("a ledger"))
    };
    failing.map_or(judges.steps() as i64, |n| -(10 + 16 * n as i64))
}

/// Runs a list through the published Rust, and where it can't hold the ledger through the plain list of steps.
pub fn run(list: &List) -> Run {
    let mut judges = Judges::new(&whole(&ledger::whole(&list.start), list.length));
    let mut expected = vec![];
    for item in &list.items {
        expected.push(match item.damage {
            Some(damage) if (4..=LONGEST).contains(&list.length) => ask_damaged(&judges, &item.call, damage),
            _ => ask_plainly(&mut judges, &item.call),
        });
    }
    let desk = desk(list, &judges);
    Run { expected, records: judges.records(), steps: judges.steps(), desk, both: judges.both }
}

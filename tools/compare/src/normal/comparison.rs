//! Both sides beside one another, batch by batch, with counts of what was compared.
use crate::listings::{asked, smaller};
use crate::normal::copied::MOST_CLAUSES;
use crate::normal::expected::{CLAUSES, Expected, SHORT, expected};
use crate::outputs::{self, Said};
use crate::stack::on_stack;
use judge::formula::Sort;
use judge::ledger::MOST_NODES;
use judge::random::Random;
use judge::session::fresh;
use linefeijoa::bytes::normal;
use std::collections::BTreeMap;

/// The stack that our library runs in.
const STACK: usize = 2 << 20;
/// After so many differences the run stops, and no more are told.
pub const MOST_DIFFERENCES: u64 = 10;
/// Of an operand that differs so many bytes are shown.
const SHOWN: usize = 800;
/// More than any normal form that is let through needs.
const ROOMY: usize = 1024;

/// Lengths of lists before pruning that are counted apart.
pub const LENGTHS: [usize; 5] = [255, 256, 257, 288, 512];

#[derive(Default)]
pub struct Comparison {
    /// Operands by part.
    pub operands: BTreeMap<&'static str, u64>,
    /// Calls by part and answer.
    pub calls: BTreeMap<(&'static str, &'static str), u64>,
    /// Operands at a limit.
    pub limits: BTreeMap<String, u64>,
    /// Faces of which the published function was asked, and those that it would not end on soon.
    pub published: u64,
    pub not_asked: u64,
    pub differences: u64,
}

/// Outputs of exactly the length, one byte less, none, one byte more and many; after a refusal none and some.
fn every_room(said: &Said) -> Vec<usize> {
    match said {
        Ok((_, results)) => {
            let needed = results[0].len();
            vec![needed, needed - 1, 0, needed + 1, ROOMY]
        }
        Err(_) => vec![0, 1, ROOMY],
    }
}

/// Exactly the length and another one; after a refusal any.
fn some_rooms(random: &mut Random, said: &Said) -> Vec<usize> {
    match said {
        Ok((_, results)) => asked::rooms(random, results[0].len()).to_vec(),
        Err(_) => vec![*random.pick(&[0, 1, 40, ROOMY])],
    }
}

fn ask(operand: &[u8], said: &Said, rooms: &[usize]) -> Result<(), String> {
    asked::each(said, rooms, operand, normal)
}

/// Both sides anew.
fn differs(operand: &[u8]) -> Option<String> {
    let expected = fresh(|| expected(operand));
    let rooms = every_room(&expected.said);
    on_stack(STACK, "a smaller operand", || ask(operand, &expected.said, &rooms)).err()
}

fn shown(bytes: &[u8]) -> String {
    let hex: String = bytes.iter().take(SHOWN).map(|b| format!("{b:02x}")).collect();
    if bytes.len() > SHOWN { format!("{hex} .. {} bytes", bytes.len()) } else { hex }
}

fn answer(expected: &Expected) -> String {
    match &expected.said {
        Ok((length, results)) => format!("{length}: {}", shown(&results[0])),
        Err(_) => format!("refused {}", expected.reason),
    }
}

impl Comparison {
    pub fn count(&self, part: &str) -> u64 {
        self.operands.get(part).copied().unwrap_or_default()
    }
    /// Operands through the Rust and then our library, in outputs of every length or of some.
    pub fn operands(&mut self, part: &'static str, name: &str, random: Option<&mut Random>, operands: &[Vec<u8>]) {
        let all: Vec<_> = fresh(|| operands.iter().map(|operand| expected(operand)).collect());
        let rooms: Vec<_> = match random {
            Some(random) => all.iter().map(|e| some_rooms(random, &e.said)).collect(),
            None => all.iter().map(|e| every_room(&e.said)).collect(),
        };
        let asks = operands.iter().zip(&all).zip(&rooms);
        let ask_all = || asks.map(|((operand, e), rooms)| ask(operand, &e.said, rooms)).collect::<Vec<_>>();
        for (i, result) in on_stack(STACK, name, ask_all).into_iter().enumerate() {
            self.note(part, &all[i], &rooms[i]);
            if all[i].copy_differs {
                self.tell(name, &operands[i], "the copy of the published function differs from it");
            }
            if let Err(difference) = result {
                self.tell(name, &operands[i], &difference);
            }
        }
    }
    fn note(&mut self, part: &'static str, e: &Expected, rooms: &[usize]) {
        *self.operands.entry(part).or_default() += 1;
        for room in rooms {
            let short = outputs::number(&e.said, &[*room]) == -6;
            *self.calls.entry((part, if short { SHORT } else { e.reason })).or_default() += 1;
        }
        match e.result {
            Some(_) => self.published += 1,
            None if e.reason == CLAUSES => self.not_asked += 1,
            None => {}
        }
        self.note_limits(e);
    }
    fn note_limits(&mut self, e: &Expected) {
        let mut met = |limit: String| *self.limits.entry(limit).or_default() += 1;
        for (what, length) in [("fand", e.watch.at_fand), ("for", e.watch.at_for)] {
            if LENGTHS.contains(&length) && length == e.watch.longest() {
                met(format!("{length} at a {what}"));
            }
        }
        if let Some(nodes) = e.result.filter(|_| e.watch.longest() <= MOST_CLAUSES)
            && [MOST_NODES, MOST_NODES + 2].contains(&nodes)
        {
            met(format!("result of {nodes}"));
        }
        if [MOST_NODES, MOST_NODES + 2].contains(&e.nodes) {
            met(format!("operand of {}", e.nodes));
        }
        if e.reason == CLAUSES && e.result.is_some_and(|nodes| nodes <= MOST_NODES) {
            met("dropped".into());
        }
    }
    /// Counts a difference and tells it, the first one with a smaller operand.
    fn tell(&mut self, name: &str, operand: &[u8], difference: &str) {
        self.differences += 1;
        if self.differences > MOST_DIFFERENCES {
            return;
        }
        println!("\nDIFFERENCE in {name}: {difference}\n  operand: {}", shown(operand));
        if self.differences > 1 {
            return;
        }
        let candidates = |bytes: &[u8]| fresh(|| smaller::operands(Sort::Face, bytes));
        let small = smaller::smallest(operand, candidates, |operand| differs(operand).is_some());
        if let Some(difference) = differs(&small) {
            let expected = fresh(|| answer(&expected(&small)));
            println!("a small operand that differs: {}\n  {difference}\n  expected: {expected}", shown(&small));
        }
    }
}

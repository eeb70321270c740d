//! Both sides beside one another, batch by batch, with counts of what was compared.
use crate::fences::expected::{COUNT, Expected, expected};
use crate::fences::limits::Operand;
use crate::fences::seen::{Seen, seen};
use crate::lent::Lent;
use crate::library::fence;
use crate::listings::smaller;
use crate::stack::on_stack;
use judge::formula::Sort;
use judge::session::fresh;
use judge::text::HEX;
use std::collections::BTreeMap;

/// The stack that our library runs in, and the harness around it.
pub const STACK: usize = 64 << 10;
/// After so many differences the run stops, and no more are told.
pub const MOST_DIFFERENCES: u64 = 10;
/// Of an operand that differs so many bytes are shown; longer ones are not made smaller.
const SHOWN: usize = 1_200;

/// Counts by answer and a number.
pub type Histogram = BTreeMap<(&'static str, usize), u64>;

#[derive(Default)]
pub struct Comparison {
    /// By part, sort and answer.
    pub answers: BTreeMap<(&'static str, &'static str, &'static str), u64>,
    /// By depth, of those that 2, 3 and 4 let in.
    pub depths: Histogram,
    /// By largest dimension, likewise, where there is one.
    pub indices: Histogram,
    /// Operands that break two questions at once.
    pub pairs: BTreeMap<(u8, u8), u64>,
    pub differences: u64,
}

pub fn word(sort: Sort) -> &'static str {
    if sort == Sort::Face { "faces" } else { "intervals" }
}

fn ask(sort: Sort, operand: &[u8], want: Expected) -> Result<(), String> {
    let lent = Lent::new(operand);
    let answered = fence(sort, lent.content());
    if answered != want.number {
        return Err(format!("answered {answered}, expected {}", want.number));
    }
    lent.same("the operand", operand)
}

/// Both sides anew.
fn differs(sort: Sort, operand: &[u8]) -> Option<String> {
    let want = fresh(|| expected(sort, operand));
    on_stack(STACK, "a smaller operand", || ask(sort, operand, want)).err()
}

fn shown(bytes: &[u8]) -> String {
    let more = if bytes.len() > SHOWN { format!(" .. {} bytes", bytes.len()) } else { String::new() };
    HEX(&bytes[..bytes.len().min(SHOWN)]) + &more
}

/// Stops where the questions that the reader of heads finds broken are not what the door and the Rust answer.
fn agree(want: Expected, seen: &Seen, operand: &[u8]) {
    let number = seen.broken().first().map_or(seen.nodes as i64, |question| -i64::from(*question));
    assert_eq!(number, want.number, "the heads read in order, beside the door and the Rust: {}", shown(operand));
}

impl Comparison {
    pub fn count(&self, part: &str) -> u64 {
        self.answers.iter().filter(|((p, ..), _)| *p == part).map(|(_, n)| n).sum()
    }
    /// Operands through the door and the Rust and then our library.
    pub fn operands(&mut self, part: &'static str, name: &str, operands: &[Operand]) {
        let wants: Vec<_> = fresh(|| operands.iter().map(|(sort, operand)| expected(*sort, operand)).collect());
        let asks = operands.iter().zip(&wants);
        let ask_all = || asks.map(|((sort, operand), want)| ask(*sort, operand, *want)).collect::<Vec<_>>();
        let results = on_stack(STACK, name, ask_all);
        for ((sort, operand), want) in operands.iter().zip(&wants) {
            self.note(part, *sort, operand, *want);
        }
        let mut found: Vec<_> = operands.iter().zip(results).filter_map(|(o, r)| r.err().map(|e| (o, e))).collect();
        found.sort_by_key(|((_, operand), _)| operand.len());
        found.iter().for_each(|((sort, operand), difference)| self.tell(name, *sort, operand, difference));
    }
    fn note(&mut self, part: &'static str, sort: Sort, operand: &[u8], want: Expected) {
        *self.answers.entry((part, word(sort), want.reason)).or_default() += 1;
        let seen = seen(sort, operand);
        agree(want, &seen, operand);
        let broken = seen.broken();
        for (i, p) in broken.iter().enumerate() {
            broken[i + 1..].iter().for_each(|q| *self.pairs.entry((*p, *q)).or_default() += 1);
        }
        if want.reason == COUNT || want.number == -13 {
            *self.depths.entry((want.reason, seen.depth)).or_default() += 1;
            if let Some(n) = seen.index {
                *self.indices.entry((want.reason, usize::from(n))).or_default() += 1;
            }
        }
    }
    /// Counts a difference and tells it, the first one with a smaller operand.
    fn tell(&mut self, name: &str, sort: Sort, operand: &[u8], difference: &str) {
        self.differences += 1;
        if self.differences > MOST_DIFFERENCES {
            return;
        }
        println!("\nDIFFERENCE in {name}, {}: {difference}\n  operand: {}", word(sort), shown(operand));
        if self.differences > 1 || operand.len() > SHOWN {
            return;
        }
        let candidates = |bytes: &[u8]| fresh(|| smaller::operands(sort, bytes));
        let small = smaller::smallest(operand, candidates, |operand| differs(sort, operand).is_some());
        if let Some(difference) = differs(sort, &small) {
            println!("a small operand that differs: {}\n  {difference}", shown(&small));
        }
    }
}

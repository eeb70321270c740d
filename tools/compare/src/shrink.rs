//! A smaller list that still differs, and its text in the sample's form.
use crate::expected::{self, Item, List, Run};
use crate::replay::{Difference, replay};
use judge::formula::{Sort, read_whole};
use judge::session::fresh;
use judge::text::{HEX, answer_line, call_line, ending_line};
use std::fmt::Write;
use std::time::{Duration, Instant};

/// How long smaller lists are tried.
const PATIENCE: Duration = Duration::from_secs(10);

/// Both sides anew; what differs, if anything.
fn differs(list: &List) -> Option<Difference> {
    let run = fresh(|| expected::run(list));
    replay("a smaller list", list, &run).err()
}

/// The list without an item.
fn without(list: &List, i: usize) -> List {
    let mut smaller = list.clone();
    smaller.items.remove(i);
    smaller
}

/// The parts of an operand, as bytes.
fn parts(bytes: &[u8], sort: Sort) -> Vec<Vec<u8>> {
    let tree = fresh(|| read_whole(bytes, sort).map(|t| t.parts.iter().map(|p| p.bytes()).collect()));
    tree.unwrap_or_default()
}

/// The list with an operand replaced by one of its parts, in every way.
fn with_parts(list: &List) -> Vec<List> {
    let mut out = vec![];
    for (i, Item { call, .. }) in list.items.iter().enumerate() {
        for (j, sort) in call.name.signature().sorts.iter().enumerate() {
            for part in parts(&call.operands[j], *sort) {
                let mut smaller = list.clone();
                smaller.items[i].call.operands[j] = part;
                out.push(smaller);
            }
        }
    }
    out
}

/// The first list with a call or part of an operand less that still differs.
fn smaller(list: &List, start: Instant) -> Option<(List, Difference)> {
    let fewer = (0..list.items.len()).rev().map(|i| without(list, i));
    let mut candidates = fewer.chain(with_parts(list)).take_while(|_| start.elapsed() < PATIENCE);
    candidates.find_map(|candidate| differs(&candidate).map(|difference| (candidate, difference)))
}

/// Takes calls and parts of operands away as long as the list still differs.
pub fn smallest(list: &List, difference: Difference) -> (List, Difference) {
    let mut cut = list.clone();
    cut.items.truncate(difference.item + 1);
    let Some(found) = differs(&cut) else { return (list.clone(), difference) };
    let (mut best, start) = ((cut, found), Instant::now());
    while let Some(better) = smaller(&best.0, start) {
        best = better;
    }
    best
}

/// The list as the sample has it, with the Rust's answers. A damaged byte is
/// a line that readers of the sample skip.
pub fn text(list: &List, run: &Run) -> String {
    let mut out = format!("list 1\nledger {}\n", list.length);
    if !list.start.is_empty() {
        writeln!(out, "# the ledger holds these records beforehand: {}", HEX(&list.start)).unwrap();
    }
    for (item, expected) in list.items.iter().zip(&run.expected) {
        if let Some(damaged) = &expected.damaged {
            let (place, byte) = (damaged.place, damaged.byte);
            writeln!(out, "# for the next call only, byte {place} of the ledger is {byte}").unwrap();
        }
        writeln!(out, "{}", call_line(&item.call, HEX)).unwrap();
        writeln!(out, "{}", answer_line(&expected.answer, HEX)).unwrap();
    }
    let used = judge::ledger::whole(&run.records);
    out + &ending_line(&used, HEX)
}

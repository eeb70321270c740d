//! Lists that 7 refuses in the middle: the same call again, the calls before it, and smaller ones follow in the same ledger.
use crate::expected::List;
use crate::lists::{SMALL, grown, is_short, list_of};
use judge::call::Call;
use judge::formula::{Tree, read_whole};
use judge::lists;
use judge::random::Random;

/// How many smaller calls follow at most.
const MOST_SMALLER: usize = 12;
/// The ledger on which the list is tried first: long enough for nearly all of it.
const TRIED: usize = 65_536;

/// All parts of a formula, itself left out.
fn below<'a>(t: &'a Tree, out: &mut Vec<&'a Tree>) {
    for part in &t.parts {
        out.push(part);
        below(part, out);
    }
}

/// The call with a part of an operand in its place, in every way.
pub fn smaller(call: &Call) -> Vec<Call> {
    let mut out = vec![];
    for (j, sort) in call.name.signature().sorts.iter().enumerate() {
        let Some(tree) = read_whole(&call.operands[j], *sort) else { continue };
        let mut parts = vec![];
        below(&tree, &mut parts);
        for part in parts {
            let mut other = call.clone();
            other.operands[j] = part.bytes();
            out.push(other);
        }
    }
    out.retain(is_short);
    out
}

/// One list by its seed, if some call of it adds steps: the ledger ends within the steps of that call.
pub fn made(seed: u64) -> Option<List> {
    let mut random = Random::new(seed ^ 0x7777);
    let (_, mut calls) = lists::list(seed, SMALL);
    let grown = grown(&list_of(TRIED, calls.clone()));
    let end = *grown.get(random.below(grown.len().max(1)))?;
    let length = end.used - random.between(1, end.new);
    calls.truncate(end.item + 1);
    let (before, stopped) = (calls.clone(), calls[end.item].clone());
    let parts = smaller(&stopped);
    calls.push(stopped.clone());
    for _ in 0..MOST_SMALLER.min(parts.len()) {
        calls.push(random.pick(&parts).clone());
    }
    calls.push(stopped);
    calls.extend((0..3).map(|_| random.pick(&before).clone()));
    Some(list_of(length, calls))
}

//! What a look-up finds, by document 01's account of the ledger: the steps as the oracle's own reader has them, each written
//! anew, and its place from the lengths of what stands before it.
use crate::expected;
use judge::ledger;
use judge::rules;

/// Bytes of a record before its references: its length and its kind.
const HEAD: usize = 4 + 2;

/// A step as it stands in a ledger.
pub struct Found {
    pub kind: usize,
    pub references: Vec<usize>,
    pub start: usize,
    pub operands: Vec<u8>,
}

impl Found {
    /// Start and length as the library packs them.
    pub fn place(&self) -> i64 {
        self.start as i64 + ((self.operands.len() as i64) << 32)
    }
    /// One more than what reference i names, or 0.
    pub fn reference(&self, i: u64) -> i64 {
        let named = usize::try_from(i).ok().and_then(|i| self.references.get(i));
        named.map_or(0, |n| *n as i64 + 1)
    }
}

/// The steps of a ledger; None where question 1 says no.
pub fn steps(bytes: &[u8]) -> Option<Vec<Found>> {
    let mut at = 4;
    let mut found = |(rule, references, judgement): ledger::Step| {
        let mut operands = vec![];
        ledger::write_judgement(&judgement, &mut operands);
        let start = at + HEAD + 4 * references.len();
        at = start + operands.len();
        Found { kind: ledger::kind(&rule), references, start, operands }
    };
    Some(expected::read(bytes)?.into_iter().map(&mut found).collect())
}

/// The name of a kind's rule; none for a number that is no kind.
pub fn rule_name(kind: u64) -> &'static [u8] {
    match usize::try_from(kind) {
        Ok(k) if (1..=rules::RULES.len()).contains(&k) => rules::name(k).as_bytes(),
        _ => b"",
    }
}

//! Document 01: "Two ledgers repeat each other when both end in an entails step with equal operand bytes; an empty one
//! repeats nothing." Question 1 is asked of both, by the oracle's own reader; the last record is found by the lengths.
use crate::expected;

/// The kind `entails.checked`, and the bytes of its record before the operands: kind and three references.
const ENTAILS: usize = 30;
const BEFORE: usize = 2 + 3 * 4;

/// What a well-formed ledger ends in.
#[derive(Clone, PartialEq, Eq, Debug)]
pub enum End {
    Nothing,
    /// Another step: what follows its kind.
    Other(Vec<u8>),
    /// The operand bytes.
    Claim(Vec<u8>),
}

fn number(bytes: &[u8]) -> usize {
    bytes.iter().rev().fold(0, |sum, b| sum * 256 + usize::from(*b))
}

/// The bodies of the records, in order.
fn bodies(records: &[u8]) -> Vec<&[u8]> {
    let (mut left, mut out) = (records, vec![]);
    while !left.is_empty() {
        let (body, rest) = left[4..].split_at(number(&left[..4]));
        out.push(body);
        left = rest;
    }
    out
}

/// How a ledger ends; None where question 1 says no.
pub fn end(bytes: &[u8]) -> Option<End> {
    expected::read(bytes)?;
    let records = &bytes[4..4 + number(&bytes[..4])];
    Some(match bodies(records).last() {
        None => End::Nothing,
        Some(body) if number(&body[..2]) == ENTAILS => End::Claim(body[BEFORE..].to_vec()),
        Some(body) => End::Other(body[2..].to_vec()),
    })
}

/// What is answered to two ledgers that end so.
pub fn answer(l: &Option<End>, m: &Option<End>) -> i64 {
    match (l, m) {
        (None, _) | (_, None) => -1,
        (Some(End::Claim(x)), Some(End::Claim(y))) => i64::from(x == y),
        _ => 0,
    }
}

//! Ledgers that are compared with one another: a claim alone and behind other steps, with another byte, not last; what lists
//! of calls leave; empty ones, and such that question 1 refuses.
use crate::expected::whole;
use crate::listings::ledgers::{after, damaged};
use judge::call::{Answer, Call, Name};
use judge::cost;
use judge::fixed;
use judge::formula::{OR, Tree, pair};
use judge::ledger::LONGEST;
use judge::lists::{self, Style};
use judge::random::Random;
use judge::session::Session;

const SMALL: Style =
    Style { most_nodes: 9, most_calls: 6, most_covers: 100, most_dims: 4, lengths: &[2_048, 4_096, 16_384], broken: 3 };

const LARGE: Style = Style { most_nodes: 255, most_dims: 255, lengths: &[65_536, 300_000], ..SMALL };

/// In how many of a hundred batches the formulas are large.
const LARGE_SHARE: usize = 4;
/// How far behind the start of its record the operands of a claim are: length, kind, three references.
const OPERANDS: usize = 4 + 2 + 3 * 4;
/// The most covers that the search for a claim may need.
const MOST_COVERS: u64 = 100;

/// A call of entails that says yes: the first random claim that holds, else one that is made to.
fn claim(seed: u64, style: Style) -> Call {
    let holds = |(d, a, b): &(usize, Tree, Tree)| {
        a.bound().max(b.bound()) <= *d && cost::search(a, b, MOST_COVERS).0 == Some(true)
    };
    let claims = lists::claims(seed, style);
    if let Some((d, a, b)) = claims.iter().find(|claim| holds(claim)) {
        return Call::new(Name::Entails, *d, &[a, b]);
    }
    let a = &claims[0].1;
    let wider = pair(OR, a.clone(), fixed::ff());
    let b = if wider.nodes() <= 511 { wider } else { a.clone() };
    Call::new(Name::Entails, a.bound(), &[a, &b])
}

/// The ledger that a claim leaves behind the steps of these calls, and what more it holds.
fn ending(before: &[Call], claim: &Call, behind: &[Call]) -> Vec<u8> {
    let mut session = Session::new(LONGEST);
    for call in before.iter().chain([claim]).chain(behind) {
        let (answer, _) = session.ask(call);
        assert!(call != claim || matches!(answer, Answer::Yes(..)), "a claim that does not hold");
    }
    session.used()
}

/// Where the last record begins, if there is one.
fn last_record(used: &[u8]) -> Option<usize> {
    let (mut at, mut last) = (4, None);
    while at < used.len() {
        last = Some(at);
        at += 4 + u32::from_le_bytes(used[at..at + 4].try_into().unwrap()) as usize;
    }
    last
}

/// One byte of the last record made another, mostly of the operands.
fn other_claim(used: &[u8], random: &mut Random) -> Vec<u8> {
    let mut out = used.to_vec();
    let (last, end) = (last_record(used).expect("a step"), used.len() - 1);
    let from = if random.chance(85) { (last + OPERANDS).min(end) } else { last };
    let place = random.between(from, end);
    out[place] ^= *random.pick(&[1, 1, 1, 2, 3, 128, 255]);
    out
}

/// The claim's record left out, or with another reference.
fn other_last(used: &[u8], random: &mut Random) -> Vec<u8> {
    let last = last_record(used).expect("a step");
    if random.chance(50) {
        return [&((last - 4) as u32).to_le_bytes(), &used[4..last]].concat();
    }
    let mut out = used.to_vec();
    out[last + OPERANDS - 4 * random.between(1, 3)] = 0;
    out
}

/// Some bytes of zeros behind the records.
fn with_zeros(used: &[u8], random: &mut Random) -> Vec<u8> {
    let spare = *random.pick(&[0, 1, 3, 40, 1_000]);
    whole(used, used.len() + spare)
}

/// The ledgers of a batch by its seed. Each is compared with each.
pub fn batch(seed: u64) -> Vec<Vec<u8>> {
    let mut random = Random::new(!seed);
    let style = if random.chance(LARGE_SHARE) { LARGE } else { SMALL };
    let claim = claim(seed, style);
    let (_, calls) = lists::list(seed, style);
    let (length, others) = lists::list(!seed, style);
    let alone = ending(&[], &claim, &[]);
    let behind = ending(&calls, &claim, &[]);
    let before = ending(&[], &claim, &calls);
    let mut all = vec![vec![0; *random.pick(&[4, 5, 64, 700])], after(length, &others, &mut random)];
    all.extend([other_claim(&alone, &mut random), other_claim(&behind, &mut random), other_last(&alone, &mut random)]);
    all.extend([&alone, &behind, &before, &alone].map(|used| with_zeros(used, &mut random)));
    let twins: Vec<_> = all[3..].iter().map(|bytes| damaged(bytes, &mut random)).collect();
    all.extend(twins);
    all
}

/// Ledgers at the limits of length, and boundaries whose bytes are those of a claim.
pub fn fixed() -> Vec<Vec<u8>> {
    let record = |kind: u8, references: usize, operands: &[u8]| {
        let body = [&[kind, 0], &vec![0; 4 * references][..], operands].concat();
        [&(body.len() as u32).to_le_bytes()[..], &body].concat()
    };
    let ledger = |records: &[Vec<u8>]| {
        let records = records.concat();
        [&(records.len() as u32).to_le_bytes()[..], &records].concat()
    };
    let first = record(1, 0, &[0, 1]);
    // 16 is i0 in front of a boundary, and d in front of a claim.
    let entails = ledger(&[first.clone(), record(30, 3, &[16, 1, 0])]);
    let boundary = ledger(&[first.clone(), record(31, 0, &[16, 1, 0])]);
    let mut all: Vec<_> = [0, 1, 3, 4, 5, LONGEST - 1, LONGEST, LONGEST + 1].iter().map(|n| vec![0; *n]).collect();
    all.extend([LONGEST - 1, LONGEST, LONGEST + 1].map(|n| whole(&entails, n)));
    all.extend([ledger(&[first]), ledger(&[record(30, 3, &[16, 1, 0])]), boundary, entails]);
    all
}

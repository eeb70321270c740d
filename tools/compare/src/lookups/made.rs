//! Ledgers whose steps are looked up: those that lists of calls leave with damaged copies, and those that no call made, with the
//! same; and the kinds whose names are asked for.
use crate::expected::whole;
use crate::foreign;
use crate::listings::ledgers::{self, damaged};
use judge::random::Random;

/// In how many of a hundred batches the ledger is one that no call made.
const FOREIGN_SHARE: usize = 50;
const COPIES: usize = 2;

fn of_calls(all: Vec<ledgers::Ledger>) -> Vec<Vec<u8>> {
    all.into_iter().map(|ledger| ledger.bytes).collect()
}

/// The start of a foreign list, with some zeros behind it, and damaged copies.
fn of_nobody(seed: u64, random: &mut Random) -> Vec<Vec<u8>> {
    let records = foreign::made(seed).start;
    let used = [&(records.len() as u32).to_le_bytes()[..], &records].concat();
    let bytes = whole(&used, used.len() + *random.pick(&[0, 0, 1, 40]));
    let copies: Vec<_> = (0..COPIES).map(|_| damaged(&bytes, random)).collect();
    [vec![bytes], copies].concat()
}

/// The ledgers of a batch by its seed.
pub fn batch(seed: u64) -> Vec<Vec<u8>> {
    let mut random = Random::new(!seed);
    if random.chance(FOREIGN_SHARE) { of_nobody(seed, &mut random) } else { of_calls(ledgers::made(seed)) }
}

/// Lists that have every kind, and lengths that question 1 refuses.
pub fn fixed() -> Vec<Vec<u8>> {
    of_calls(ledgers::fixed())
}

/// Every kind, and numbers that are none.
pub fn kinds() -> Vec<u64> {
    let wide = [8, 16, 32, 63].map(|bits| 1 << bits);
    let beyond = wide.iter().flat_map(|w| (0..=76).map(move |k| w + k));
    (0..=80).chain(beyond).chain([u64::MAX, u64::MAX - 74]).collect()
}

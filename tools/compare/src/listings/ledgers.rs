//! Ledgers whose steps are listed: those that the Rust's lists of calls leave, and damaged copies.
use crate::expected::{self, whole};
use crate::listings::printer;
use judge::call::Call;
use judge::ledger::{self, LONGEST, Step};
use judge::lists::{self, Style};
use judge::random::Random;
use judge::session::Session;
use std::collections::BTreeSet;

const SMALL: Style = Style {
    most_nodes: 15,
    most_calls: 12,
    most_covers: 200,
    most_dims: 4,
    lengths: &[700, 2_048, 4_096, 16_384],
    broken: 6,
};

const LARGE: Style = Style {
    most_nodes: 511,
    most_calls: 6,
    most_covers: 200,
    most_dims: 255,
    lengths: &[LONGEST, 300_000, 65_536],
    broken: 3,
};

/// In how many of a hundred lists the formulas are large.
const LARGE_SHARE: usize = 3;
/// How many damaged copies a ledger has, and one that takes long to read.
const COPIES: usize = 4;
const LONG_COPIES: usize = 1;
const LONG: usize = 100_000;
/// Of a ledger with more steps only some are asked for, since each call reads the whole ledger.
const MOST_STEPS: usize = 300;
const SOME_STEPS: usize = 30;

/// One step asked for: its number, its kind if there is such a step, and its line, empty past the end; or refusal 1.
pub struct Asked {
    pub step: u64,
    pub kind: Option<usize>,
    pub line: Result<Vec<u8>, u8>,
}

/// A ledger and some of its steps.
pub struct Ledger {
    pub name: String,
    pub bytes: Vec<u8>,
    pub asked: Vec<Asked>,
}

impl Ledger {
    fn new(name: String, bytes: Vec<u8>, random: &mut Random) -> Self {
        let steps = expected::read(&bytes);
        let numbers = some_steps(random, steps.as_ref().map_or(3, Vec::len));
        let asked = numbers.into_iter().map(|step| asked(steps.as_deref(), step)).collect();
        Self { name, bytes, asked }
    }
}

fn asked(steps: Option<&[Step]>, step: u64) -> Asked {
    let Some(steps) = steps else { return Asked { step, kind: None, line: Err(1) } };
    let mut line = vec![];
    let found = usize::try_from(step).ok().and_then(|i| steps.get(i).map(|s| (i, s)));
    let kind = found.map(|(i, s)| {
        printer::step(i, s, &mut line);
        ledger::kind(&s.0)
    });
    Asked { step, kind, line: Ok(line) }
}

/// The steps of a ledger that are asked for: all or some, and numbers past the end.
pub fn some_steps(random: &mut Random, count: usize) -> BTreeSet<u64> {
    let mut steps: BTreeSet<_> = [count, count + 1, count + random.below(1000)].map(|n| n as u64).into();
    steps.extend([(1 << 32) + random.below(count + 1) as u64, u64::MAX, u64::MAX - random.below(9) as u64]);
    if count <= MOST_STEPS {
        steps.extend(0..count as u64);
    } else {
        steps.extend([0, count as u64 - 1]);
        steps.extend((0..SOME_STEPS).map(|_| random.below(count) as u64));
    }
    steps
}

/// The ledger that a list of calls leaves, of the list's length or not much longer than its steps.
pub fn after(length: usize, calls: &[Call], random: &mut Random) -> Vec<u8> {
    let mut session = Session::new(length);
    calls.iter().for_each(|call| drop(session.ask(call)));
    let used = session.used();
    let spare = used.len() + *random.pick(&[0, 0, 1, 40]);
    whole(&used, if random.chance(80) { spare } else { length.max(4) })
}

/// One or two bytes made others, mostly among the records.
pub fn damaged(bytes: &[u8], random: &mut Random) -> Vec<u8> {
    let used = 4 + u32::from_le_bytes(bytes[..4].try_into().unwrap()) as usize;
    let mut out = bytes.to_vec();
    for _ in 0..random.between(1, 2) {
        let place = random.below(bytes.len().min(used + 4));
        let flips = [1, 2, 3, 128, 255, random.between(1, 255) as u8];
        out[place] ^= *random.pick(&flips);
    }
    if random.chance(5) {
        let length = random.below(out.len());
        out.truncate(length);
    }
    out
}

/// The ledger and damaged copies of it.
fn with_copies(name: &str, bytes: Vec<u8>, random: &mut Random) -> Vec<Ledger> {
    let count = if bytes.len() < LONG { COPIES } else { LONG_COPIES };
    let mut all = vec![Ledger::new(name.to_owned(), bytes.clone(), random)];
    for i in 0..count {
        let copy = damaged(&bytes, random);
        all.push(Ledger::new(format!("{name}, copy {i}"), copy, random));
    }
    all
}

/// Ledgers by their seed.
pub fn made(seed: u64) -> Vec<Ledger> {
    let mut random = Random::new(!seed);
    let style = if random.chance(LARGE_SHARE) { LARGE } else { SMALL };
    let (length, calls) = lists::list(seed, style);
    let bytes = after(length, &calls, &mut random);
    with_copies(&format!("list {seed}"), bytes, &mut random)
}

/// Lists that have every kind, and lengths that question 1 refuses.
pub fn fixed() -> Vec<Ledger> {
    let mut random = Random::new(1);
    let mut out = vec![];
    for (i, (length, calls)) in judge::fixed::lists().iter().enumerate() {
        let length = (*length).clamp(4, LONGEST);
        let bytes = after(length, calls, &mut random);
        out.extend(with_copies(&format!("fixed list {i}"), bytes, &mut random));
    }
    for length in [0, 1, 2, 3, 4, 5, LONGEST, LONGEST + 1] {
        out.push(Ledger::new(format!("{length} zeros"), vec![0; length], &mut random));
    }
    out
}

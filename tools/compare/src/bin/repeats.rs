//! Pairs of ledgers through our repeat test and through a model of document 01's sentence.
//! usage: repeats [PAIRS] [SEED]
use compare::lent::Lent;
use compare::repeats::made;
use compare::repeats::model::{self, End};
use compare::stack::on_stack;
use judge::session::fresh;
use linefeijoa::bytes::repeats;
use published::{BYTES, FILES, SUM};
use std::collections::BTreeMap;
use std::process::ExitCode;

const PAIRS: u64 = 500_000;
const SEED: u64 = 1;
const MOST_DIFFERENCES: usize = 10;
const STACK: usize = 1 << 20;

/// What a pair is, without which the run shows too little.
const OWED: [&str; 9] = [
    "refused: the first, beside a claim",
    "refused: the second, beside a claim",
    "refused: beside an empty one",
    "refused: both",
    "repeats: the same bytes",
    "repeats: other ledgers",
    "fresh: claims of one length that differ in one byte",
    "fresh: other claims",
    "fresh: an empty one",
];

/// More of the same, counted but not owed.
const OTHER: [&str; 3] =
    ["refused: beside another step", "fresh: equal steps that are no claims", "fresh: another step"];

struct Ledger {
    bytes: Vec<u8>,
    end: Option<End>,
}

#[derive(Default)]
struct Tally {
    pairs: BTreeMap<&'static str, u64>,
    differences: usize,
}

fn apart(x: &[u8], y: &[u8]) -> usize {
    x.iter().zip(y).filter(|(x, y)| x != y).count()
}

fn class(l: &Ledger, m: &Ledger) -> &'static str {
    match (&l.end, &m.end) {
        (None, None) => OWED[3],
        (None, Some(End::Claim(_))) => OWED[0],
        (Some(End::Claim(_)), None) => OWED[1],
        (None, Some(End::Nothing)) | (Some(End::Nothing), None) => OWED[2],
        (None, _) | (_, None) => OTHER[0],
        (Some(End::Claim(x)), Some(End::Claim(y))) if x == y => OWED[if l.bytes == m.bytes { 4 } else { 5 }],
        (Some(End::Claim(x)), Some(End::Claim(y))) => OWED[if x.len() == y.len() && apart(x, y) == 1 { 6 } else { 7 }],
        (Some(End::Nothing), _) | (_, Some(End::Nothing)) => OWED[8],
        (Some(x), Some(y)) => OTHER[if x == y { 1 } else { 2 }],
    }
}

impl Tally {
    fn count(&self) -> u64 {
        self.pairs.values().sum()
    }
    fn pair(&mut self, name: &str, l: &Ledger, m: &Ledger, lent: (&Lent, &Lent)) {
        let (want, have) = (model::answer(&l.end, &m.end), repeats(lent.0.content(), lent.1.content()));
        *self.pairs.entry(class(l, m)).or_default() += 1;
        if want != have {
            self.differences += 1;
            println!("DIFFERENCE in {name}: {have}, expected {want}");
            println!("  {:02x?}\n  {:02x?}", l.bytes, m.bytes);
        }
    }
    /// Each ledger of a batch with each, itself among them: then both slices are the same one.
    fn batch(&mut self, name: &str, batch: Vec<Vec<u8>>) {
        let all: Vec<_> = batch.into_iter().map(|bytes| Ledger { end: model::end(&bytes), bytes }).collect();
        let lent: Vec<_> = all.iter().map(|l| Lent::new(&l.bytes)).collect();
        for (l, x) in all.iter().zip(&lent) {
            all.iter().zip(&lent).for_each(|(m, y)| self.pair(name, l, m, (x, y)));
        }
        for (l, x) in all.iter().zip(&lent) {
            if let Err(difference) = x.same("a ledger", &l.bytes) {
                self.differences += 1;
                println!("DIFFERENCE in {name}: {difference}");
            }
        }
    }
}

fn main() -> ExitCode {
    let mut words = std::env::args().skip(1).map(|w| w.parse().expect("usage: repeats [PAIRS] [SEED]"));
    let (pairs, seed) = (words.next().unwrap_or(PAIRS), words.next().unwrap_or(SEED));
    println!("published source: {FILES} files, {BYTES} bytes, sum {SUM:016x}; seeds from {seed} on");
    let mut tally = Tally::default();
    on_stack(STACK, "the fixed ledgers", || tally.batch("the fixed ledgers", made::fixed()));
    let mut next = seed;
    while tally.count() < pairs && tally.differences < MOST_DIFFERENCES {
        let (name, batch) = (format!("seed {next}"), fresh(|| made::batch(next)));
        on_stack(STACK, &name, || tally.batch(&name, batch));
        next += 1;
    }
    tally.pairs.iter().for_each(|(class, n)| println!("{class}: {n}"));
    let missing: Vec<_> = OWED.iter().filter(|class| !tally.pairs.contains_key(**class)).collect();
    println!("{} pairs, differences: {}", tally.count(), tally.differences);
    if !missing.is_empty() {
        println!("did not occur: {missing:?}");
    }
    if tally.differences == 0 && missing.is_empty() { ExitCode::SUCCESS } else { ExitCode::FAILURE }
}

//! The questions about one ledger, and about one kind.
use crate::lent::Lent;
use crate::listings::ledgers::some_steps;
use crate::lookups::model::{self, Found};
use judge::random::Random;
use linefeijoa::bytes as library;
use std::collections::{BTreeMap, BTreeSet};

/// The run stops after the batch that has so many.
pub const MOST_DIFFERENCES: usize = 10;
/// Output lengths for a name: the longest name has 15 bytes.
const ROOMS: std::ops::RangeInclusive<usize> = 0..=40;

#[derive(Default)]
pub struct Tally {
    pub answers: BTreeMap<&'static str, u64>,
    pub kinds: BTreeSet<usize>,
    pub differences: usize,
}

impl Tally {
    pub fn count(&self) -> u64 {
        self.answers.values().sum()
    }
    fn differs(&mut self, what: &str) {
        self.differences += 1;
        if self.differences <= MOST_DIFFERENCES {
            println!("DIFFERENCE: {what}");
        }
    }
    fn same(&mut self, class: &'static str, what: impl Fn() -> String, have: i64, want: i64) {
        *self.answers.entry(class).or_default() += 1;
        if have != want {
            self.differs(&format!("{}: {have}, expected {want}", what()));
        }
    }
    /// The bytes at a place are those of the judgement, written anew.
    fn part(&mut self, bytes: &[u8], step: &Found) {
        let part = bytes.get(step.start..step.start + step.operands.len());
        if part != Some(&step.operands[..]) {
            self.differs(&format!("the model's place {} in {bytes:02x?}", step.start));
        }
    }
    /// One step, or what is no step, of a ledger.
    fn step(&mut self, bytes: &[u8], step: u64, found: Option<&Found>, none: &'static str) {
        let class = |is: &'static str| if found.is_some() { is } else { none };
        let what = |name: &str| format!("{name} of step {step} in {bytes:02x?}");
        let place = found.map_or(0, Found::place);
        self.same(class("operands"), || what("the operands"), library::operands(bytes, step), place);
        let kind = found.map_or(0, |f| f.kind as i64);
        self.same(class("kind"), || what("the kind"), library::kind(bytes, step), kind);
        let count = found.map_or(0, |f| f.references.len() as u64);
        for i in (0..=count + 1).chain([(1 << 32) + count, 1 << 62, 1 << 63, u64::MAX]) {
            let class = if i < count { "a reference" } else { class("past the last reference") };
            let want = found.map_or(0, |f| f.reference(i));
            self.same(class, || what(&format!("reference {i}")), library::reference(bytes, step, i), want);
        }
    }
    /// Some steps of a ledger, and numbers past its end.
    pub fn ledger(&mut self, bytes: &[u8], random: &mut Random) {
        let lent = Lent::new(bytes);
        let steps = model::steps(bytes);
        let none = if steps.is_some() { "past the end" } else { "no ledger" };
        let steps = steps.unwrap_or_default();
        for step in some_steps(random, steps.len()) {
            let found = usize::try_from(step).ok().and_then(|i| steps.get(i));
            if let Some(f) = found {
                self.part(bytes, f);
                self.kinds.insert(f.kind);
            }
            self.step(lent.content(), step, found, none);
        }
        if let Err(difference) = lent.same("a ledger", bytes) {
            self.differs(&difference);
        }
    }
    /// The name of a number, in outputs of all lengths.
    pub fn name(&mut self, kind: u64) {
        let name = model::rule_name(kind);
        for room in ROOMS {
            let mut out = Lent::pattern(room, kind as usize % 97);
            let mut want = out.content().to_vec();
            let fits = name.len() <= room;
            if fits {
                want[..name.len()].copy_from_slice(name);
            }
            let class = if name.is_empty() { "no kind" } else { ["a name, refused 6", "a name"][usize::from(fits)] };
            let what = || format!("the name of {kind} in {room} bytes");
            let answer = if fits { name.len() as i64 } else { -6 };
            let have = library::rule_name(kind, out.slice());
            self.same(class, what, have, answer);
            if let Err(difference) = out.same(&what(), &want) {
                self.differs(&difference);
            }
        }
    }
}

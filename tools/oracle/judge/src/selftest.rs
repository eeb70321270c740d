//! The checks themselves: that they notice what is wrong, and that the two
//! ways to decide an entailment, and the counted search, agree.
use crate::check;
use crate::cost;
use crate::desk::Desk;
use crate::exhaustive::faces_up_to;
use crate::fixed;
use crate::formula::Tree;
use crate::ledger::Step;
use crate::meaning;
use crate::random::{Random, SHAPES, face};
use crate::sample;
use crate::session::Session;
use crate::text;

/// So many alterations were made, and so many noticed.
#[derive(Default, Clone, Copy)]
pub struct Noticed {
    pub made: usize,
    pub noticed: usize,
}

impl Noticed {
    fn add(&mut self, noticed: bool) {
        self.made += 1;
        self.noticed += usize::from(noticed);
    }
}

fn steps_of(list: &sample::List) -> Vec<Step> {
    let mut session = Session::new(list.0);
    list.1.iter().for_each(|call| drop(session.ask(call)));
    session.steps().to_vec()
}

/// Every reference of the small ledgers, pointed at the step after.
pub fn references() -> Noticed {
    let mut out = Noticed::default();
    let desk = Desk::default();
    for list in fixed::every_kind() {
        let steps = steps_of(&list);
        for own in 2..steps.len() {
            for place in 0..steps[own].1.len() {
                let mut altered = steps.clone();
                let r = &mut altered[own].1[place];
                *r = (*r + 1) % own;
                out.add(desk.first_failing(&altered) == Some(own));
            }
        }
    }
    out
}

/// Each line of the small sample's answers and ledgers, with one sign changed.
pub fn sample_lines() -> Noticed {
    let mut out = Noticed::default();
    let (whole, _) = sample::small();
    let lines: Vec<_> = whole.lines().collect();
    for i in 0..lines.len() {
        if ["yes", "refused", "ledger-is"].iter().any(|w| lines[i].starts_with(w)) {
            let mut altered = lines.clone();
            let line = changed(lines[i]);
            altered[i] = &line;
            out.add(!sample::held(&altered.join("\n")).differences.is_empty());
        }
    }
    out
}

/// The line with its last sign made another.
fn changed(line: &str) -> String {
    let last = if line.ends_with('1') { '2' } else { '1' };
    format!("{}{last}", &line[..line.len() - 1])
}

/// Whether the two decisions and the counted search agree on a pair.
fn agree(a: &Tree, b: &Tree) -> bool {
    let all = meaning::entails(a, b);
    let least = meaning::entails_by_clauses(a, b);
    let (searched, _) = cost::search(a, b, 100_000);
    all.is_some() && all == least && (searched.is_none() || searched == all)
}

pub fn decisions() -> Noticed {
    let mut out = Noticed::default();
    let small = faces_up_to(3, 2);
    small.iter().for_each(|a| small.iter().for_each(|b| out.add(agree(a, b))));
    let mut random = Random::new(7);
    for _ in 0..3_000 {
        let mut one = || {
            let (shape, nodes) = (*random.pick(&SHAPES), random.size(31));
            face(&mut random, shape, nodes, &[0, 1, 2, 3, 4])
        };
        out.add(agree(&one(), &one()));
    }
    out
}

/// Reading the text back gives the same calls.
pub fn round_trip() -> bool {
    let (whole, _) = sample::small();
    let lists = fixed::every_kind();
    let read = text::read(&whole).unwrap_or_default();
    read.len() == lists.len() && read.iter().zip(&lists).all(|(e, l)| e.length == l.0 && e.calls == l.1)
}

/// A whole list, to see that a fresh run gives the same bytes twice.
pub fn repeatable() -> bool {
    let twice = |list: &sample::List| {
        let run = || check::run(list.0, &list.1, &Desk::default(), &mut check::Tally::default());
        run() == run()
    };
    fixed::every_kind().iter().all(twice)
}

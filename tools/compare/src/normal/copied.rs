//! The published `Face::normal` (Apache-2.0, see NOTICE) with its inner functions word for word, since they can't be reached:
//! beside them the longest lists before pruning are noted, and the work is bounded. That it is the same function is compared
//! on every face that is asked.
use published::cubical::engine::face_frontend::Face;
use std::collections::BTreeSet;

type Clause = BTreeSet<(usize, bool)>;

/// Once a list has more clauses than these, the answer is 5 whatever follows.
pub const MOST_CLAUSES: usize = 256;
/// After that so many pairs of clauses are looked at; the Rust may not end on more. Without it the Rust always ends.
const MOST_PAIRS: u64 = 300_000;

/// The longest list before pruning at a for and at a fand, and the pairs of clauses looked at.
#[derive(Default, Clone, Copy)]
pub struct Watch {
    pub at_for: usize,
    pub at_fand: usize,
    pub pairs: u64,
}

impl Watch {
    pub fn longest(&self) -> usize {
        self.at_for.max(self.at_fand)
    }
    /// So many more pairs; None where they are too many.
    fn look(&mut self, pairs: usize) -> Option<()> {
        self.pairs += pairs as u64;
        (self.longest() <= MOST_CLAUSES || self.pairs <= MOST_PAIRS).then_some(())
    }
    fn list_of_for(&mut self, length: usize) -> Option<()> {
        self.at_for = self.at_for.max(length);
        self.look(length * length)
    }
    fn list_of_fand(&mut self, length: usize) -> Option<()> {
        self.grown_to(length)?;
        self.look(length * length)
    }
    /// A list of a fand has so many clauses already; None where it can't be pruned any more.
    fn grown_to(&mut self, length: usize) -> Option<()> {
        self.at_fand = self.at_fand.max(length);
        Watch { ..*self }.look(length * length)
    }
}

fn prune(mut clauses: Vec<Clause>) -> Vec<Clause> {
    clauses.sort();
    clauses.dedup();
    (0..clauses.len())
        .filter(|&i| !(0..clauses.len()).any(|j| i != j && clauses[j].is_subset(&clauses[i])))
        .map(|i| clauses[i].clone())
        .collect()
}

fn dnf(f: &Face, watch: &mut Watch) -> Option<Vec<Clause>> {
    Some(match f {
        Face::False => vec![],
        Face::True => vec![Clause::new()],
        Face::End(n, b) => vec![Clause::from([(*n, *b)])],
        Face::Or(a, b) => {
            let mut out = dnf(a, watch)?;
            out.extend(dnf(b, watch)?);
            watch.list_of_for(out.len())?;
            prune(out)
        }
        Face::And(a, b) => {
            let mut out = vec![];
            let bs = dnf(b, watch)?;
            for a in dnf(a, watch)? {
                watch.look(bs.len())?;
                for b in &bs {
                    if a.iter().any(|(n, v)| b.contains(&(*n, !v))) {
                        continue;
                    }
                    out.push(a.union(b).copied().collect());
                }
                watch.grown_to(out.len())?;
            }
            watch.list_of_fand(out.len())?;
            prune(out)
        }
    })
}

/// The normal form; None where it was given up, which happens only after a list over the limit.
pub fn normal(f: &Face) -> (Option<Face>, Watch) {
    let mut watch = Watch::default();
    let clauses = dnf(f, &mut watch);
    let folded = clauses.map(|clauses| {
        clauses
            .into_iter()
            .map(|clause| clause.into_iter().map(|(n, b)| Face::End(n, b)).reduce(Face::and).unwrap_or(Face::True))
            .reduce(Face::or)
            .unwrap_or(Face::False)
    });
    (folded, watch)
}

//! The search of `cover` on our trees, only counted: how often it is entered
//! and how deep. It says beforehand whether a call of the Rust would end.
use crate::formula::*;

#[derive(Default, Clone, Copy, PartialEq, Debug)]
pub struct Cost {
    pub covers: u64,
    pub deepest: u64,
}

struct Search {
    cost: Cost,
    most: u64,
}

fn opposite(t: &Tree) -> Tree {
    at(if t.kind == AT0 { AT1 } else { AT0 }, t.dim)
}

fn is_literal(t: &Tree) -> bool {
    matches!(t.kind, AT0 | AT1)
}

fn is_compound(t: &Tree) -> bool {
    matches!(t.kind, AND | OR)
}

/// Top, hit, absurd or clash: the search is over with a yes.
fn closed(context: &[&Tree], goal: &Tree) -> bool {
    goal.kind == FT
        || context.iter().any(|f| *f == goal || f.kind == FF)
        || context.iter().any(|f| is_literal(f) && context.contains(&&opposite(f)))
}

impl Search {
    /// Whether the goal is covered; None once the budget is spent.
    fn cover(&mut self, context: &[&Tree], goal: &Tree, depth: u64) -> Option<bool> {
        self.cost.covers += 1;
        self.cost.deepest = self.cost.deepest.max(depth);
        if self.cost.covers > self.most {
            return None;
        }
        if closed(context, goal) {
            return Some(true);
        }
        if let Some(i) = context.iter().position(|f| is_compound(f)) {
            return self.left(context, i, goal, depth + 1);
        }
        let mut half = |i: usize| self.cover(context, &goal.parts[i], depth + 1);
        match goal.kind {
            AND => Some(half(0)? && half(1)?),
            OR => Some(half(0)? || half(1)?),
            _ => Some(false),
        }
    }
    fn left(&mut self, context: &[&Tree], i: usize, goal: &Tree, depth: u64) -> Option<bool> {
        let f = context[i];
        let rest = || context[..i].iter().chain(&context[i + 1..]).copied();
        if f.kind == AND {
            let both: Vec<_> = f.parts.iter().chain(rest()).collect();
            return self.cover(&both, goal, depth);
        }
        let branch = |part| std::iter::once(part).chain(rest()).collect::<Vec<_>>();
        Some(self.cover(&branch(&f.parts[0]), goal, depth)? && self.cover(&branch(&f.parts[1]), goal, depth)?)
    }
}

/// The verdict and the cost of the search, if it ends within so many covers.
pub fn search(a: &Tree, b: &Tree, most: u64) -> (Option<bool>, Cost) {
    let mut search = Search { cost: Cost::default(), most };
    let verdict = search.cover(&[a], b, 1);
    (verdict, search.cost)
}

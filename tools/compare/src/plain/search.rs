//! The search of `cover`, its tries in document 01's order. It asks the ledger nothing but what emit asks.
use crate::plain::steps::Operand::{Context, Formula};
use crate::plain::steps::{Outcome, Plain, bytes};
use judge::formula::*;

fn is_opposite(f: &Tree, g: &Tree) -> bool {
    matches!((f.kind, g.kind), (AT0, AT1) | (AT1, AT0)) && f.dim == g.dim
}

/// The places of the zero side and the one side of the first literal with an opposite.
fn clash(faces: &[&Tree]) -> Option<(usize, usize)> {
    faces.iter().enumerate().find_map(|(i, f)| {
        let k = faces.iter().position(|g| is_opposite(f, g))?;
        Some(if f.kind == AT0 { (i, k) } else { (k, i) })
    })
}

/// The faces with these in front and without the one at a place.
fn instead<'a>(front: &[&'a Tree], faces: &[&'a Tree], i: usize) -> Vec<&'a Tree> {
    [front, &faces[..i], &faces[i + 1..]].concat()
}

impl Plain {
    fn member(&mut self, faces: &[&Tree], i: usize) -> Outcome<usize> {
        let operands = [Formula(faces[i]), Context(faces)];
        if i == 0 {
            return self.emit("member.here", &[], &operands);
        }
        let tail = self.member(&faces[1..], i - 1)?;
        self.emit("member.there", &[tail], &operands)
    }
    fn take(&mut self, faces: &[&Tree], i: usize) -> Outcome<usize> {
        let rest = instead(&[], faces, i);
        let operands = [Context(faces), Formula(faces[i]), Context(&rest)];
        if i == 0 {
            return self.emit("take.here", &[], &operands);
        }
        let tail = self.take(&faces[1..], i - 1)?;
        self.emit("take.there", &[tail], &operands)
    }
    /// The step that says that the faces cover the goal; else 9, or 7.
    pub fn cover(&mut self, faces: &[&Tree], goal: &Tree) -> Outcome<usize> {
        let judgement = bytes(&[Context(faces), Formula(goal)]);
        if let Some(met) = &mut self.met {
            met.push(judgement.clone());
        }
        if let Some(known) = self.over.as_ref().and_then(|over| over.get(&judgement)) {
            return *known;
        }
        let outcome = self.tries(faces, goal);
        if let Some(over) = &mut self.over {
            over.insert(judgement, outcome);
        }
        outcome
    }
    fn tries(&mut self, faces: &[&Tree], goal: &Tree) -> Outcome<usize> {
        let own = [Context(faces), Formula(goal)];
        let first = |is: &dyn Fn(&Tree) -> bool| faces.iter().position(|f| is(f));
        if goal.kind == FT {
            return self.emit("cover.top", &[], &own);
        }
        if let Some(i) = first(&|f| f == goal) {
            let hit = self.member(faces, i)?;
            return self.emit("cover.hit", &[hit], &own);
        }
        if let Some(i) = first(&|f| f.kind == FF) {
            let absurd = self.member(faces, i)?;
            return self.emit("cover.absurd", &[absurd], &own);
        }
        if let Some((i, k)) = clash(faces) {
            let both = [self.member(faces, i)?, self.member(faces, k)?];
            return self.emit("cover.clash", &both, &own);
        }
        if let Some(i) = first(&|f| matches!(f.kind, AND | OR)) {
            return self.left(faces, i, goal);
        }
        self.right(faces, goal)
    }
    fn left(&mut self, faces: &[&Tree], i: usize, goal: &Tree) -> Outcome<usize> {
        let own = [Context(faces), Formula(goal)];
        let (a, b) = (&faces[i].parts[0], &faces[i].parts[1]);
        let take = self.take(faces, i)?;
        if faces[i].kind == AND {
            let both = self.cover(&instead(&[a, b], faces, i), goal)?;
            return self.emit("cover.and-left", &[take, both], &own);
        }
        let one = self.cover(&instead(&[a], faces, i), goal)?;
        let other = self.cover(&instead(&[b], faces, i), goal)?;
        self.emit("cover.or-left", &[take, one, other], &own)
    }
    fn right(&mut self, faces: &[&Tree], goal: &Tree) -> Outcome<usize> {
        let own = [Context(faces), Formula(goal)];
        match goal.kind {
            AND => {
                let both = [self.cover(faces, &goal.parts[0])?, self.cover(faces, &goal.parts[1])?];
                self.emit("cover.and-right", &both, &own)
            }
            OR => match self.cover(faces, &goal.parts[0]) {
                Ok(left) => self.emit("cover.or-right0", &[left], &own),
                Err(9) => {
                    let right = self.cover(faces, &goal.parts[1])?;
                    self.emit("cover.or-right1", &[right], &own)
                }
                full => full,
            },
            _ => Err(9),
        }
    }
}

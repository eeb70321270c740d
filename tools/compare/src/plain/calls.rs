//! The ten calls, references before their step and left first, over a plain list of steps.
use crate::plain::steps::Operand::{Formula, Number};
use crate::plain::steps::{Outcome, Plain};
use judge::call::{Answer, Call, Name};
use judge::door;
use judge::formula::*;
use judge::operations;
use std::cmp::Ordering;

/// Shift at k, or substitution of r for k.
#[derive(Clone, Copy)]
struct Operation<'a> {
    k: usize,
    r: Option<&'a Tree>,
}

impl Operation<'_> {
    fn result(self, t: &Tree) -> Tree {
        match self.r {
            Some(r) => operations::substitute(t, self.k as u8, r),
            None => operations::shift(t, self.k as u8),
        }
    }
    /// The predicate for a formula of this sort.
    fn predicate(self, sort: Sort) -> &'static str {
        match (sort, self.r.is_some()) {
            (Sort::Face, false) => "fshift",
            (Sort::Face, true) => "fsubst",
            (Sort::Interval, false) => "ishift",
            (Sort::Interval, true) => "isubst",
        }
    }
}

/// The last part of a rule's name, by the formula's kind.
fn suffix(kind: u8) -> &'static str {
    match kind {
        FF => "ff",
        FT => "ft",
        AT0 | I0 => "0",
        AT1 | I1 => "1",
        AND => "and",
        OR => "or",
        DIM => "dim",
        NEG => "neg",
        MEET => "meet",
        _ => "join",
    }
}

impl Plain {
    /// lt m n, or le m n; 8 where it is false.
    fn comparison(&mut self, predicate: &str, m: usize, n: usize) -> Outcome<usize> {
        if m > n || m == n && predicate == "lt" {
            return Err(8);
        }
        let operands = [Number(m), Number(n)];
        if m == 0 {
            return self.emit(&format!("{predicate}.z"), &[], &operands);
        }
        let below = self.comparison(predicate, m - 1, n - 1)?;
        self.emit(&format!("{predicate}.s"), &[below], &operands)
    }
    /// face d t or interval d t.
    fn bounded(&mut self, d: usize, t: &Tree) -> Outcome<usize> {
        let mut references = vec![];
        match t.kind {
            DIM => references.push(self.comparison("lt", usize::from(t.dim), d)?),
            AT0 | AT1 => references.push(self.bounded(d, &at(DIM, t.dim))?),
            _ => {
                for part in &t.parts {
                    references.push(self.bounded(d, part)?);
                }
            }
        }
        let predicate = if t.sort() == Sort::Face { "face" } else { "interval" };
        self.emit(&format!("{predicate}.{}", suffix(t.kind)), &references, &[Number(d), Formula(t)])
    }
    fn boundary(&mut self, r: &Tree) -> Outcome<usize> {
        let references = r.parts.iter().map(|part| self.boundary(part)).collect::<Outcome<Vec<_>>>()?;
        let (zero, one) = operations::boundary(r);
        let operands = [Formula(r), Formula(&zero), Formula(&one)];
        self.emit(&format!("boundary.{}", suffix(r.kind)), &references, &operands)
    }
    fn forall(&mut self, f: &Tree, k: usize) -> Outcome<usize> {
        let n = usize::from(f.dim);
        let (end, references) = match (f.kind, n.cmp(&k)) {
            (AT0 | AT1, Ordering::Less) => (".lt", vec![self.comparison("lt", n, k)?]),
            (AT0 | AT1, Ordering::Equal) => (".hit", vec![]),
            (AT0 | AT1, Ordering::Greater) => (".gt", vec![self.comparison("lt", k, n)?]),
            _ => ("", f.parts.iter().map(|part| self.forall(part, k)).collect::<Outcome<Vec<_>>>()?),
        };
        let out = operations::forall(f, k as u8);
        let operands = [Formula(f), Number(k), Formula(&out)];
        self.emit(&format!("fforall.{}{end}", suffix(f.kind)), &references, &operands)
    }
    /// The references of a dimension's step, and the end of its rule's name.
    fn transform_dim(&mut self, n: usize, operation: Operation) -> Outcome<(&'static str, Vec<usize>)> {
        let k = operation.k;
        Ok(match (n.cmp(&k), operation.r.is_some()) {
            (Ordering::Less, _) => (".lt", vec![self.comparison("lt", n, k)?]),
            (_, false) => (".ge", vec![self.comparison("le", k, n)?]),
            (Ordering::Equal, true) => (".hit", vec![]),
            (Ordering::Greater, true) => (".gt", vec![self.comparison("lt", k, n)?]),
        })
    }
    fn transform_literal(&mut self, n: u8, operation: Operation) -> Outcome<Vec<usize>> {
        let moved = at(DIM, n);
        let mut references = vec![self.transform(&moved, operation)?];
        if operation.r.is_some() {
            references.push(self.boundary(&operation.result(&moved))?);
        }
        Ok(references)
    }
    fn transform(&mut self, t: &Tree, operation: Operation) -> Outcome<usize> {
        let (end, references) = match t.kind {
            DIM => self.transform_dim(usize::from(t.dim), operation)?,
            AT0 | AT1 => ("", self.transform_literal(t.dim, operation)?),
            _ => ("", t.parts.iter().map(|part| self.transform(part, operation)).collect::<Outcome<Vec<_>>>()?),
        };
        let out = operation.result(t);
        let mut operands = vec![Formula(t), Number(operation.k)];
        operands.extend(operation.r.map(Formula));
        operands.push(Formula(&out));
        let rule = format!("{}.{}{end}", operation.predicate(t.sort()), suffix(t.kind));
        self.emit(&rule, &references, &operands)
    }
    fn entails(&mut self, d: usize, a: &Tree, b: &Tree) -> Outcome<usize> {
        let references = [self.bounded(d, a)?, self.bounded(d, b)?, self.cover(&[a], b)?];
        self.emit("entails.checked", &references, &[Number(d), Formula(a), Formula(b)])
    }
    fn endpoint(&mut self, d: usize, phi: &Tree, r: &Tree, one: bool) -> Outcome<usize> {
        let sides = operations::boundary(r);
        let (goal, end, rule) = if one { (sides.1, I1, "local.1") } else { (sides.0, I0, "local.0") };
        let references = [self.bounded(d, r)?, self.boundary(r)?, self.entails(d, phi, &goal)?];
        self.emit(rule, &references, &[Number(d), Formula(phi), Formula(r), Formula(&leaf(end))])
    }
    fn run(&mut self, call: &Call, operands: &[Tree]) -> Outcome<usize> {
        let (n, first) = (call.number, &operands[0]);
        match call.name {
            Name::Face | Name::Interval => self.bounded(n, first),
            Name::Boundary => self.boundary(first),
            Name::Endpoint => self.endpoint(n, first, &operands[1], call.one),
            Name::Forall => self.forall(first, n),
            Name::FaceShift | Name::IntervalShift => self.transform(first, Operation { k: n, r: None }),
            Name::FaceSubstitute | Name::IntervalSubstitute => {
                self.transform(first, Operation { k: n, r: Some(&operands[1]) })
            }
            Name::Entails => self.entails(n, first, &operands[1]),
        }
    }
    /// The answer to a call, questions 2 to 9. Refusal 7 leaves the steps as they were.
    pub fn ask(&mut self, call: &Call) -> Answer {
        let seen = match door::admit(call) {
            Ok(seen) => seen,
            Err(question) => return Answer::Refused(question),
        };
        let before = self.steps.len();
        if let Some(over) = &mut self.over {
            over.clear();
        }
        match self.run(call, &seen.operands) {
            Ok(step) => Answer::Yes(step, seen.results.iter().map(Tree::bytes).collect()),
            Err(question) => {
                if question == 7 {
                    self.undo(before);
                }
                Answer::Refused(question)
            }
        }
    }
}

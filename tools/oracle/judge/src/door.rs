//! Document 01's door, questions 2 to 6: ours and not the Rust's.
use crate::call::{Call, Name, Number};
use crate::formula::{self, Tree};
use crate::ledger::{LAST_DIMENSION, MOST_NODES};
use crate::operations;

/// A call that was let in, its operands read.
pub struct Admitted {
    pub operands: Vec<Tree>,
    pub results: Vec<Tree>,
}

/// The result formulas of a call on trees.
pub fn results(name: Name, k: u8, operands: &[Tree]) -> Vec<Tree> {
    let f = &operands[0];
    match name {
        Name::Boundary => {
            let (a, b) = operations::boundary(f);
            vec![a, b]
        }
        Name::Forall => vec![operations::forall(f, k)],
        Name::FaceShift | Name::IntervalShift => vec![operations::shift(f, k)],
        Name::FaceSubstitute | Name::IntervalSubstitute => vec![operations::substitute(f, k, &operands[1])],
        Name::Face | Name::Interval | Name::Endpoint | Name::Entails => vec![],
    }
}

fn few_nodes(t: &Tree) -> bool {
    t.nodes() <= MOST_NODES
}

fn low_dimensions(t: &Tree) -> bool {
    t.bound() <= LAST_DIMENSION + 1
}

fn low_number(call: &Call) -> bool {
    match call.name.signature().number {
        Number::None => true,
        Number::D => call.number <= LAST_DIMENSION + 1,
        Number::K => call.number <= LAST_DIMENSION,
    }
}

/// Each question is asked of all operands before the next.
pub fn admit(call: &Call) -> Result<Admitted, usize> {
    let sorts = call.name.signature().sorts;
    let read = call.operands.iter().zip(sorts).map(|(b, s)| formula::read_whole(b, *s));
    let operands = read.collect::<Option<Vec<_>>>().ok_or(2_usize)?;
    if !operands.iter().all(few_nodes) {
        return Err(3);
    }
    if !operands.iter().all(low_dimensions) || !low_number(call) {
        return Err(4);
    }
    let results = results(call.name, call.number as u8, &operands);
    if !results.iter().all(|t| few_nodes(t) && low_dimensions(t)) {
        return Err(5);
    }
    if results.iter().zip(&call.rooms).any(|(t, room)| t.bytes().len() > *room) {
        return Err(6);
    }
    Ok(Admitted { operands, results })
}

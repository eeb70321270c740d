//! What `lf_fence_face` and `lf_fence_interval` should answer: the door of `tools/oracle`, then the published functions.
use crate::admitted::admitted;
use judge::formula::{AND, AT0, AT1, DIM, FF, FT, I0, I1, MEET, NEG, Sort, Tree};
use published::cubical::ast::{Face, Interval};
use published::cubical::producer;

pub const COUNT: &str = "count";
pub const ILL: &str = "2";
pub const NODES: &str = "3";
pub const DIMENSION: &str = "4";
pub const DEPTH: &str = "13 by depth";
pub const INDEX: &str = "13 by index";
pub const ANSWERS: [&str; 6] = [COUNT, ILL, NODES, DIMENSION, DEPTH, INDEX];

/// The Rust's producer has trees of its own, apart from those of its engine.
pub fn rust_face(t: &Tree) -> Face {
    let part = |i: usize| Box::new(rust_face(&t.parts[i]));
    match t.kind {
        FF => Face::False,
        FT => Face::True,
        AT0 | AT1 => Face::End(usize::from(t.dim), t.kind == AT1),
        AND => Face::And(part(0), part(1)),
        _ => Face::Or(part(0), part(1)),
    }
}

pub fn rust_interval(t: &Tree) -> Interval {
    let part = |i: usize| Box::new(rust_interval(&t.parts[i]));
    match t.kind {
        I0 => Interval::Zero,
        I1 => Interval::One,
        DIM => Interval::Var(usize::from(t.dim)),
        NEG => Interval::Neg(part(0)),
        MEET => Interval::Meet(part(0), part(1)),
        _ => Interval::Join(part(0), part(1)),
    }
}

/// The answer, and why it is so.
#[derive(Clone, Copy)]
pub struct Expected {
    pub number: i64,
    pub reason: &'static str,
}

fn refused(question: u8) -> Expected {
    let reason = [ILL, NODES, DIMENSION][usize::from(question) - 2];
    Expected { number: -i64::from(question), reason }
}

/// Which of the two limits the Rust's words are about. The door lets in no 10,000 nodes, so its third is never met.
fn limit(words: &str) -> &'static str {
    match words {
        "cubical syntax exceeds depth 32 or 10000 nodes" => DEPTH,
        "face dimension index exceeds 32" | "dimension index exceeds 32" => INDEX,
        _ => panic!("the Rust says: {words}"),
    }
}

/// What the published function says of a formula that was let in, from the root on.
fn published(sort: Sort, t: &Tree) -> Expected {
    let mut nodes = 0;
    let said = match sort {
        Sort::Face => producer::face(&rust_face(t), 0, &mut nodes),
        Sort::Interval => producer::interval(&rust_interval(t), 0, &mut nodes),
    };
    match said {
        Ok(()) => Expected { number: nodes as i64, reason: COUNT },
        Err(words) => Expected { number: -13, reason: limit(&words) },
    }
}

pub fn expected(sort: Sort, operand: &[u8]) -> Expected {
    admitted(sort, operand).map_or_else(refused, |tree| published(sort, &tree))
}

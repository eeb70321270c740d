//! Calls with arbitrary arguments, as a caller passes them: bytes and numbers.
use crate::formula::{Sort, Tree};

#[derive(Clone, Copy, PartialEq, Eq, Debug)]
pub enum Name {
    Face,
    Interval,
    Boundary,
    Endpoint,
    Forall,
    FaceShift,
    IntervalShift,
    FaceSubstitute,
    IntervalSubstitute,
    Entails,
}

/// What the number before the operands is.
#[derive(Clone, Copy, PartialEq, Eq, Debug)]
pub enum Number {
    None,
    D,
    K,
}

/// What a call takes: its number, its operands' sorts, how many outputs.
pub struct Signature {
    pub name: Name,
    pub word: &'static str,
    pub number: Number,
    pub sorts: &'static [Sort],
    pub outputs: usize,
}

const F: Sort = Sort::Face;
const I: Sort = Sort::Interval;

const fn row(name: Name, word: &'static str, number: Number, sorts: &'static [Sort], outputs: usize) -> Signature {
    Signature { name, word, number, sorts, outputs }
}

pub const CALLS: [Signature; 10] = [
    row(Name::Face, "face", Number::D, &[F], 0),
    row(Name::Interval, "interval", Number::D, &[I], 0),
    row(Name::Boundary, "boundary", Number::None, &[I], 2),
    row(Name::Endpoint, "endpoint", Number::D, &[F, I], 0),
    row(Name::Forall, "forall", Number::K, &[F], 1),
    row(Name::FaceShift, "face-shift", Number::K, &[F], 1),
    row(Name::IntervalShift, "interval-shift", Number::K, &[I], 1),
    row(Name::FaceSubstitute, "face-substitute", Number::K, &[F, I], 1),
    row(Name::IntervalSubstitute, "interval-substitute", Number::K, &[I, I], 1),
    row(Name::Entails, "entails", Number::D, &[F, F], 0),
];

impl Name {
    pub fn signature(self) -> &'static Signature {
        CALLS.iter().find(|s| s.name == self).unwrap()
    }
}

#[derive(Clone, PartialEq, Debug)]
pub struct Call {
    pub name: Name,
    /// d or k; 0 where the call has neither.
    pub number: usize,
    /// For endpoint: the end is i1.
    pub one: bool,
    /// How long each output slice is.
    pub rooms: Vec<usize>,
    pub operands: Vec<Vec<u8>>,
}

/// The longest result: 511 nodes, 256 of them with a dimension byte.
pub const LONGEST_RESULT: usize = 767;

impl Call {
    pub fn new(name: Name, number: usize, operands: &[&Tree]) -> Self {
        Call {
            name,
            number,
            one: false,
            rooms: vec![LONGEST_RESULT; name.signature().outputs],
            operands: operands.iter().map(|t| t.bytes()).collect(),
        }
    }
    pub fn endpoint(d: usize, phi: &Tree, r: &Tree, one: bool) -> Self {
        Call { one, ..Call::new(Name::Endpoint, d, &[phi, r]) }
    }
}

#[derive(Clone, PartialEq, Debug)]
pub enum Answer {
    /// The call's own step and its result formulas.
    Yes(usize, Vec<Vec<u8>>),
    Refused(usize),
}

//! Assignments: what each dimension is.
use std::fmt;

/// What a dimension is at an assignment.
#[derive(Clone, Copy, Debug, PartialEq, Eq, PartialOrd, Ord, Hash)]
pub enum Value {
    /// `at0` of the dimension holds.
    Zero,
    /// `at1` of the dimension holds.
    One,
    /// Neither holds.
    Undetermined,
}

/// A value for each of d dimensions, which [`Claim::counterexample`](crate::Claim::counterexample) answers.
///
/// It owns a byte for each dimension: 0 zero, 1 one, 2 undetermined. It prints one character for each, `0`, `1` or `_`.
///
/// ```
/// use linefeijoa::{Claim, Refusal, Value};
///
/// let claim: Claim = "entails (s (s z)) (for (at0 z) (at1 (s z))) (at0 z)".parse()?;
/// let at = claim.counterexample()?;
/// assert_eq!(at.as_bytes(), [2, 1]);
/// assert_eq!(at.to_string(), "_1");
/// assert_eq!((at.get(0), at.get(1), at.get(2)), (Some(Value::Undetermined), Some(Value::One), None));
/// assert_eq!(at.values().filter(|value| *value != Value::Undetermined).count(), 1);
/// # Ok::<(), Refusal>(())
/// ```
#[derive(Clone, PartialEq, Eq, PartialOrd, Ord, Hash)]
pub struct Assignment(Vec<u8>);

/// What a byte of an assignment says.
fn value(byte: &u8) -> Value {
    match byte {
        0 => Value::Zero,
        1 => Value::One,
        _ => Value::Undetermined,
    }
}

impl Assignment {
    /// What the library made: each byte is 0, 1 or 2.
    pub(crate) fn made(bytes: &[u8]) -> Self {
        Self(bytes.to_vec())
    }

    /// What a dimension is; none where there is no such dimension.
    pub fn get(&self, dimension: u8) -> Option<Value> {
        self.0.get(usize::from(dimension)).map(value)
    }

    /// What each dimension is, from 0 on.
    pub fn values(&self) -> impl ExactSizeIterator<Item = Value> + '_ {
        self.0.iter().map(value)
    }

    /// A byte for each dimension.
    pub fn as_bytes(&self) -> &[u8] {
        &self.0
    }

    /// A byte for each dimension, handed over.
    pub fn into_bytes(self) -> Vec<u8> {
        self.0
    }
}

impl AsRef<[u8]> for Assignment {
    fn as_ref(&self) -> &[u8] {
        &self.0
    }
}

impl From<Assignment> for Vec<u8> {
    fn from(assignment: Assignment) -> Self {
        assignment.0
    }
}

impl fmt::Display for Assignment {
    fn fmt(&self, f: &mut fmt::Formatter<'_>) -> fmt::Result {
        let sign = |value| match value {
            Value::Zero => '0',
            Value::One => '1',
            Value::Undetermined => '_',
        };
        f.pad(&self.values().map(sign).collect::<String>())
    }
}

impl fmt::Debug for Assignment {
    fn fmt(&self, f: &mut fmt::Formatter<'_>) -> fmt::Result {
        write!(f, "Assignment({self})")
    }
}

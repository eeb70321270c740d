//! Formulas of the two sorts, as prefix bytes.
use crate::limits::MAX_FORMULA_BYTES;
use crate::{Refusal, bytes, grown};
use std::fmt;
use std::str::FromStr;

/// A face: `ff`, `ft`, `(at0 n)`, `(at1 n)`, `(fand a b)`, `(for a b)`, within document 01's limits.
///
/// It owns its prefix bytes, and always holds exactly one face of at most 511 nodes with dimensions up to 254. Faces are
/// equal, and ordered, as their bytes are; those that hold at the same assignments have one [`normal`](Self::normal)
/// form.
///
/// ```
/// use linefeijoa::{Face, Refusal};
///
/// let face: Face = "(for (at0 z) (fand (at1 z) (at0 (s z))))".parse()?;
/// assert_eq!(face, Face::at0(0)?.or(&Face::at1(0)?.and(&Face::at0(1)?)?)?);
/// assert_eq!(face.as_bytes(), [5, 2, 0, 4, 3, 0, 2, 1]);
/// assert_eq!(face.to_string(), "(for (at0 z) (fand (at1 z) (at0 (s z))))");
/// assert_eq!("(for (at0 z)".parse::<Face>(), Err(Refusal::NotAccepted));
/// # Ok::<(), Refusal>(())
/// ```
#[derive(Clone, PartialEq, Eq, PartialOrd, Ord, Hash)]
pub struct Face(Vec<u8>);

/// An interval: `i0`, `i1`, `(dim n)`, `(neg r)`, `(meet r s)`, `(join r s)`, within document 01's limits.
///
/// ```
/// use linefeijoa::{Interval, Refusal};
///
/// let interval = Interval::dim(1)?.join(&Interval::i0().neg()?)?;
/// assert_eq!(interval.to_string(), "(join (dim (s z)) (neg i0))");
/// assert_eq!(interval, interval.to_string().parse()?);
/// assert_eq!(Interval::dim(255), Err(Refusal::LargeDimension));
/// # Ok::<(), Refusal>(())
/// ```
#[derive(Clone, PartialEq, Eq, PartialOrd, Ord, Hash)]
pub struct Interval(Vec<u8>);

impl Face {
    /// The face that never holds.
    pub fn ff() -> Self {
        Self(vec![0])
    }

    /// The face that always holds.
    pub fn ft() -> Self {
        Self(vec![1])
    }

    /// The face that holds where a dimension is zero. Refused by 4 for 255.
    pub fn at0(dimension: u8) -> Result<Self, Refusal> {
        Self::from_bytes([2, dimension])
    }

    /// The face that holds where a dimension is one. Refused by 4 for 255.
    pub fn at1(dimension: u8) -> Result<Self, Refusal> {
        Self::from_bytes([3, dimension])
    }

    /// Both, `fand`. Refused by 3.
    #[doc(alias = "fand")]
    pub fn and(&self, other: &Self) -> Result<Self, Refusal> {
        Self::from_bytes([&[4][..], &self.0, &other.0].concat())
    }

    /// One or the other, `for`. Refused by 3.
    #[doc(alias = "for")]
    pub fn or(&self, other: &Self) -> Result<Self, Refusal> {
        Self::from_bytes([&[5][..], &self.0, &other.0].concat())
    }

    /// The normal form: faces that hold at the same assignments have the same one. Refused by 5.
    ///
    /// ```
    /// use linefeijoa::{Face, Refusal};
    ///
    /// let wide: Face = "(for (at1 z) (fand (at1 z) (at0 (s z))))".parse()?;
    /// assert_eq!(wide.normal()?, Face::at1(0)?);
    /// # Ok::<(), Refusal>(())
    /// ```
    pub fn normal(&self) -> Result<Self, Refusal> {
        grown::grown(MAX_FORMULA_BYTES, |out| bytes::normal(&self.0, out)).map(Self)
    }

    /// How many nodes the face has, where the published Rust's producer takes it: no dimension is above 32, and no node
    /// is more than 32 levels below the root. Nothing else here asks for that. Refused by 13.
    ///
    /// ```
    /// use linefeijoa::{Face, Refusal};
    ///
    /// let face: Face = "(for (at0 z) (fand (at1 z) (at0 (s z))))".parse()?;
    /// assert_eq!(face.fence(), Ok(5));
    /// assert_eq!(Face::at0(32)?.fence(), Ok(1));
    /// assert_eq!(Face::at0(33)?.fence(), Err(Refusal::BeyondProducer));
    /// # Ok::<(), Refusal>(())
    /// ```
    pub fn fence(&self) -> Result<usize, Refusal> {
        bytes::count_of(bytes::fence_face(&self.0)).map(|nodes| nodes as usize)
    }
}

impl Interval {
    /// Zero.
    pub fn i0() -> Self {
        Self(vec![16])
    }

    /// One.
    pub fn i1() -> Self {
        Self(vec![17])
    }

    /// What a dimension is. Refused by 4 for 255.
    pub fn dim(dimension: u8) -> Result<Self, Refusal> {
        Self::from_bytes([18, dimension])
    }

    /// Zero and one exchanged. Refused by 3.
    pub fn neg(&self) -> Result<Self, Refusal> {
        Self::from_bytes([&[19][..], &self.0].concat())
    }

    /// Zero where one of the two is, one where both are. Refused by 3.
    pub fn meet(&self, other: &Self) -> Result<Self, Refusal> {
        Self::from_bytes([&[20][..], &self.0, &other.0].concat())
    }

    /// One where one of the two is, zero where both are. Refused by 3.
    pub fn join(&self, other: &Self) -> Result<Self, Refusal> {
        Self::from_bytes([&[21][..], &self.0, &other.0].concat())
    }

    /// How many nodes the interval has, where the producer takes it, as of a [face](Face::fence). Refused by 13.
    ///
    /// ```
    /// use linefeijoa::{Interval, Refusal};
    ///
    /// let deep = Interval::from_bytes([vec![19; 32], vec![18, 0]].concat())?;
    /// assert_eq!(deep.fence(), Ok(33));
    /// assert_eq!(deep.neg()?.fence(), Err(Refusal::BeyondProducer));
    /// # Ok::<(), Refusal>(())
    /// ```
    pub fn fence(&self) -> Result<usize, Refusal> {
        bytes::count_of(bytes::fence_interval(&self.0)).map(|nodes| nodes as usize)
    }
}

/// What both sorts have, by the library's reader and writer of the sort.
macro_rules! formula {
    ($sort:ident, $read:path, $write:path) => {
        impl $sort {
            /// Bytes that must be exactly one formula of this sort within the limits. Refused by 2, 3, 4.
            pub fn from_bytes(bytes: impl Into<Vec<u8>>) -> Result<Self, Refusal> {
                let bytes = bytes.into();
                // The writer asks 2, 3, 4, then 6, and no text is empty; so 6 says that the bytes are in order.
                match bytes::length_of($write(&bytes, &mut [])) {
                    Err(refusal) if refusal != Refusal::ShortOutput => Err(refusal),
                    _ => Ok(Self(bytes)),
                }
            }

            /// A text, by the proved reader; `parse` does the same. Refused by 3, 4, 11.
            pub fn from_text(text: impl AsRef<[u8]>) -> Result<Self, Refusal> {
                grown::grown(MAX_FORMULA_BYTES, |out| $read(text.as_ref(), out)).map(Self)
            }

            /// What the library made, which is within the limits.
            pub(crate) fn made(bytes: &[u8]) -> Self {
                Self(bytes.to_vec())
            }

            /// The prefix bytes.
            pub fn as_bytes(&self) -> &[u8] {
                &self.0
            }

            /// The prefix bytes, handed over.
            pub fn into_bytes(self) -> Vec<u8> {
                self.0
            }
        }

        impl FromStr for $sort {
            type Err = Refusal;

            fn from_str(text: &str) -> Result<Self, Refusal> {
                Self::from_text(text)
            }
        }

        impl TryFrom<&[u8]> for $sort {
            type Error = Refusal;

            fn try_from(bytes: &[u8]) -> Result<Self, Refusal> {
                Self::from_bytes(bytes)
            }
        }

        impl TryFrom<Vec<u8>> for $sort {
            type Error = Refusal;

            fn try_from(bytes: Vec<u8>) -> Result<Self, Refusal> {
                Self::from_bytes(bytes)
            }
        }

        impl From<$sort> for Vec<u8> {
            fn from(formula: $sort) -> Self {
                formula.0
            }
        }

        impl AsRef<[u8]> for $sort {
            fn as_ref(&self) -> &[u8] {
                &self.0
            }
        }

        /// The text, by the proved writer: it reads back as the same formula.
        impl fmt::Display for $sort {
            fn fmt(&self, f: &mut fmt::Formatter<'_>) -> fmt::Result {
                let text = grown::text(16 * self.0.len(), |out| $write(&self.0, out));
                f.pad(&text.expect("the bytes are a formula within the limits"))
            }
        }

        impl fmt::Debug for $sort {
            fn fmt(&self, f: &mut fmt::Formatter<'_>) -> fmt::Result {
                write!(f, concat!(stringify!($sort), "({})"), self)
            }
        }
    };
}

formula!(Face, bytes::read_face, bytes::write_face);
formula!(Interval, bytes::read_interval, bytes::write_interval);

/// What may be handed to a call as a face: a [`Face`], or any bytes, which the call looks at itself.
///
/// ```
/// use linefeijoa::{Face, Ledger, Refusal};
///
/// let mut ledger = Ledger::new(2_048)?;
/// assert_eq!(ledger.face(1, &Face::at0(0)?)?, ledger.face(1, &[2, 0])?);
/// assert_eq!(ledger.face(1, &[2]), Err(Refusal::NotAFormula));
/// # Ok::<(), Refusal>(())
/// ```
///
/// An [`Interval`] is no face:
///
/// ```compile_fail
/// linefeijoa::Ledger::new(2_048)?.face(1, &linefeijoa::Interval::i0())?;
/// # Ok::<(), linefeijoa::Refusal>(())
/// ```
pub trait AsFace {
    /// The prefix bytes.
    fn as_face(&self) -> &[u8];
}

/// What may be handed to a call as an interval: an [`Interval`], or any bytes, which the call looks at itself.
pub trait AsInterval {
    /// The prefix bytes.
    fn as_interval(&self) -> &[u8];
}

/// Implements a trait of operands for its sort, and for bytes as they come.
macro_rules! operand {
    ($operand:ident, $bytes:ident, $sort:ident) => {
        impl $operand for $sort {
            fn $bytes(&self) -> &[u8] {
                &self.0
            }
        }

        impl $operand for [u8] {
            fn $bytes(&self) -> &[u8] {
                self
            }
        }

        impl<const N: usize> $operand for [u8; N] {
            fn $bytes(&self) -> &[u8] {
                self
            }
        }

        impl $operand for Vec<u8> {
            fn $bytes(&self) -> &[u8] {
                self
            }
        }

        impl<T: $operand + ?Sized> $operand for &T {
            fn $bytes(&self) -> &[u8] {
                (**self).$bytes()
            }
        }
    };
}

operand!(AsFace, as_face, Face);
operand!(AsInterval, as_interval, Interval);

//! Claims: that one face implies another over d dimensions.
use crate::limits::{KIND_ENTAILS, MAX_D, MAX_FORMULA_BYTES};
use crate::{Assignment, Face, Refusal, bytes, record};
use std::fmt;
use std::str::FromStr;

/// The claim that face `a` implies face `b` over `d` dimensions, as it is typed: `entails`, d unary, a, b.
///
/// It says nothing about whether the implication holds: [`Ledger::ask`](crate::Ledger::ask) does, and
/// [`counterexample`](Self::counterexample) where it does not hold.
///
/// ```
/// use linefeijoa::{Claim, Face, Refusal};
///
/// let claim: Claim = "entails (s z) (at0 z) ft".parse()?;
/// assert_eq!(claim, Claim { d: 1, a: Face::at0(0)?, b: Face::ft() });
/// assert_eq!(claim.to_string(), "entails (s z) (at0 z) ft");
/// # Ok::<(), Refusal>(())
/// ```
#[derive(Clone, Debug, PartialEq, Eq, PartialOrd, Ord, Hash)]
pub struct Claim {
    /// How many dimensions there are.
    pub d: u8,
    /// The face that is to imply the other.
    pub a: Face,
    /// The face that is to be implied.
    pub b: Face,
}

impl Claim {
    /// A text, by the proved reader; `parse` does the same. Byte 10 separates as a space does. Refused by 3, 4, 11.
    pub fn from_text(text: impl AsRef<[u8]>) -> Result<Self, Refusal> {
        let (mut a, mut b) = ([0; MAX_FORMULA_BYTES], [0; MAX_FORMULA_BYTES]);
        let (d, first, second) = bytes::claim_of(bytes::read_claim(text.as_ref(), &mut a, &mut b))?;
        Ok(Self { d, a: Face::made(&a[..first]), b: Face::made(&b[..second]) })
    }

    /// An assignment that satisfies a and not b: none that does determines fewer dimensions, and of those that determine
    /// as few it is the first in byte order. No ledger is needed. Refused by 8 where a dimension is not below d, by 12
    /// where the implication holds; so there is one exactly where [`Ledger::ask`](crate::Ledger::ask) is refused by 9,
    /// on a ledger that is long enough.
    ///
    /// ```
    /// use linefeijoa::{Claim, Refusal};
    ///
    /// let claim: Claim = "entails (s z) ft (for (at0 z) (at1 z))".parse()?;
    /// assert_eq!(claim.counterexample()?.to_string(), "_");
    /// let claim: Claim = "entails (s z) (at0 z) ft".parse()?;
    /// assert_eq!(claim.counterexample(), Err(Refusal::Implied));
    /// # Ok::<(), Refusal>(())
    /// ```
    pub fn counterexample(&self) -> Result<Assignment, Refusal> {
        let (a, b) = (self.a.as_bytes(), self.b.as_bytes());
        let mut out = [0; MAX_D as usize];
        let length = bytes::length_of(bytes::counterexample(self.d.into(), a, b, &mut out))?;
        Ok(Assignment::made(&out[..length]))
    }
}

impl FromStr for Claim {
    type Err = Refusal;

    fn from_str(text: &str) -> Result<Self, Refusal> {
        Self::from_text(text)
    }
}

/// The text, by the proved writer of judgements, without the parentheses around it.
impl fmt::Display for Claim {
    fn fmt(&self, f: &mut fmt::Formatter<'_>) -> fmt::Result {
        let operands = [&[self.d], self.a.as_bytes(), self.b.as_bytes()].concat();
        // An entails.checked step has three references.
        let text = record::judgement(KIND_ENTAILS, 3, &operands);
        f.pad(record::inside(&text))
    }
}

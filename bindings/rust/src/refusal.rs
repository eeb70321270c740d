//! The refusals, in docs/REFUSALS.md's words.
use crate::Step;
use std::error::Error;
use std::fmt;

/// Why something was refused: document 01's number, what it means, what to do.
///
/// All but [`NotBelow`](Self::NotBelow) and [`NotImplied`](Self::NotImplied) leave every lent byte unchanged. These two
/// leave in the ledger, where one is lent, the steps that were emitted before the no.
///
/// ```
/// use linefeijoa::{Ledger, Refusal};
///
/// let mut ledger = Ledger::new(2_048)?;
/// let no = ledger.ask(&"entails (s z) ft (at0 z)".parse()?).unwrap_err();
/// assert_eq!(no, Refusal::NotImplied);
/// assert_eq!(no.number(), 9);
/// assert_eq!(no.to_string(), "the implication does not hold");
/// # Ok::<(), Refusal>(())
/// ```
#[derive(Clone, Copy, Debug, PartialEq, Eq, Hash)]
#[non_exhaustive]
pub enum Refusal {
    /// 1: the ledger is not 4 to 1,048,576 bytes long, or it is not well formed;
    /// start from zero bytes, or from the bytes that a call left.
    IllFormedLedger,
    /// 2: an operand is not exactly one formula of its sort;
    /// hand over the bytes of one face, or of one interval where an interval is asked for, and none behind them.
    NotAFormula,
    /// 3: a formula has more than 511 nodes;
    /// split the formula and ask about its parts.
    TooManyNodes,
    /// 4: a dimension or k is above 254, or d is above 255;
    /// number the dimensions that are used from 0 on.
    LargeDimension,
    /// 5: the result would have more than 511 nodes or a dimension above 254, or a normal form takes a list of more than
    /// 256 clauses;
    /// ask about a smaller formula or lower dimensions.
    LargeResult,
    /// 6: an output slice is too short for what is to stand in it;
    /// lend a longer slice and ask again.
    ShortOutput,
    /// 7: the ledger has no room for all the steps of the call;
    /// put zero bytes behind the ledger, up to 1,048,576 bytes in all, and ask again.
    FullLedger,
    /// 8: a dimension is not below d;
    /// ask with a larger d.
    NotBelow,
    /// 9: the implication does not hold;
    /// take it as the answer: the question was in order, and it is no.
    NotImplied,
    /// 10: a step does not follow by its rule;
    /// rely on no step from the one that is named on; those below it follow.
    DoesNotFollow(Step),
    /// 11: the text is not accepted;
    /// spell it with the known names, every list closed and nothing left over, in a line of at most 4,096 bytes for
    /// facesteps.
    NotAccepted,
    /// 12: the implication holds, so there is no counterexample;
    /// take it as the answer: entails says yes.
    Implied,
    /// 13: a dimension is above 32, or a node is more than 32 levels below the root, which the producer does not take;
    /// number the dimensions that are used from 0 on, and nest the formula less deeply or split it.
    BeyondProducer,
}

impl Refusal {
    /// Document 01's number, 1 to 13.
    pub fn number(self) -> u8 {
        self.words().0
    }

    /// What it means; [`Display`](fmt::Display) prints this, and of [`DoesNotFollow`](Self::DoesNotFollow) the step.
    pub fn meaning(self) -> &'static str {
        self.words().1
    }

    /// What to do.
    pub fn remedy(self) -> &'static str {
        self.words().2
    }

    /// The refusal of a number; of 10 with the step.
    pub(crate) fn numbered(number: u8, step: Step) -> Option<Self> {
        let all = [
            Self::IllFormedLedger,
            Self::NotAFormula,
            Self::TooManyNodes,
            Self::LargeDimension,
            Self::LargeResult,
            Self::ShortOutput,
            Self::FullLedger,
            Self::NotBelow,
            Self::NotImplied,
            Self::DoesNotFollow(step),
            Self::NotAccepted,
            Self::Implied,
            Self::BeyondProducer,
        ];
        all.into_iter().find(|refusal| refusal.number() == number)
    }

    /// Number, meaning and what to do.
    fn words(self) -> (u8, &'static str, &'static str) {
        match self {
            Self::IllFormedLedger => (
                1,
                "the ledger is not 4 to 1,048,576 bytes long, or it is not well formed",
                "start from zero bytes, or from the bytes that a call left",
            ),
            Self::NotAFormula => (
                2,
                "an operand is not exactly one formula of its sort",
                "hand over the bytes of one face, or of one interval where an interval is asked for, \
                 and none behind them",
            ),
            Self::TooManyNodes => (3, "a formula has more than 511 nodes", "split the formula and ask about its parts"),
            Self::LargeDimension => {
                (4, "a dimension or k is above 254, or d is above 255", "number the dimensions that are used from 0 on")
            }
            Self::LargeResult => (
                5,
                "the result would have more than 511 nodes or a dimension above 254, \
                 or a normal form takes a list of more than 256 clauses",
                "ask about a smaller formula or lower dimensions",
            ),
            Self::ShortOutput => {
                (6, "an output slice is too short for what is to stand in it", "lend a longer slice and ask again")
            }
            Self::FullLedger => (
                7,
                "the ledger has no room for all the steps of the call",
                "put zero bytes behind the ledger, up to 1,048,576 bytes in all, and ask again",
            ),
            Self::NotBelow => (8, "a dimension is not below d", "ask with a larger d"),
            Self::NotImplied => {
                (9, "the implication does not hold", "take it as the answer: the question was in order, and it is no")
            }
            Self::DoesNotFollow(_) => (
                10,
                "a step does not follow by its rule",
                "rely on no step from the one that is named on; those below it follow",
            ),
            Self::NotAccepted => (
                11,
                "the text is not accepted",
                "spell it with the known names, every list closed and nothing left over, \
                 in a line of at most 4,096 bytes for facesteps",
            ),
            Self::Implied => {
                (12, "the implication holds, so there is no counterexample", "take it as the answer: entails says yes")
            }
            Self::BeyondProducer => (
                13,
                "a dimension is above 32, or a node is more than 32 levels below the root, \
                 which the producer does not take",
                "number the dimensions that are used from 0 on, and nest the formula less deeply or split it",
            ),
        }
    }
}

impl fmt::Display for Refusal {
    fn fmt(&self, f: &mut fmt::Formatter<'_>) -> fmt::Result {
        match self {
            Self::DoesNotFollow(step) => write!(f, "{}: step {step}", self.meaning()),
            _ => f.pad(self.meaning()),
        }
    }
}

impl Error for Refusal {}

//! Face formulas of cubical type theory, their steps and the step desk, by Linefeijoa's proved library.
//!
//! A [`Claim`] "face a implies face b over d dimensions" is put to a [`Ledger`]; the library searches and writes numbered
//! steps into it, which other proofs cite by number ([`Step`]). The step desk ([`Ledger::desk`]) checks ledgers that
//! anyone may have written: what it passes is true.
//!
//! ```
//! use linefeijoa::{Claim, Ledger, Refusal};
//!
//! let claim: Claim = "entails (s z) (at0 z) ft".parse()?;
//! let mut ledger = Ledger::new(4_096)?;
//! match ledger.ask(&claim) {
//!     Ok(step) => println!("{}yes {step}", ledger.listing()),
//!     Err(Refusal::NotImplied) => println!("it does not hold at {}", claim.counterexample()?),
//!     Err(refusal) => println!("refused {}: {refusal}", refusal.number()),
//! }
//! assert_eq!(ledger.desk()?, 6);
//! # Ok::<(), Refusal>(())
//! ```
//!
//! - [`Face`] and [`Interval`] own the bytes of one formula within document 01's limits; they are read and printed by the
//!   proved reader and writer. Calls also take bytes as they come ([`AsFace`], [`AsInterval`]).
//! - [`Claim::counterexample`] answers an [`Assignment`] at which an implication does not hold.
//! - [`Face::fence`] and [`Interval::fence`] say whether the published Rust's producer, whose limits are narrower, takes a
//!   formula.
//! - [`Record`] is a step looked at: [`Rule`], references, judgement. [`Ledger::steps`] goes over all of them.
//! - [`facesteps`] is the program of that name, from an input to what it prints.
//! - [`bytes`] has the library's own functions over slices.
//!
//! # Stack
//!
//! A call takes at most 2.51 MB of stack (measured, not proved: docs/BENCHMARK.md), so it fits a thread of
//! [`limits::STACK_BYTES`]. `std` gives a thread 2 MiB unless it is told otherwise, which is too little for shift and
//! substitution of formulas that are hundreds of nodes deep, on a ledger of 1,048,576 bytes; on one of 65,536 bytes every
//! call takes some 640 KB less, and fits. Too small a stack ends the process at the guard page.
//!
//! # The library
//!
//! The build looks for `libexports.a` in the folder `LF_LIBRARY`, else in `target/staticlib` of the repository, where
//! `bash tools/library/build.sh` writes it. It runs on x86-64 Linux.
#![deny(missing_docs)]
#![deny(unsafe_code)]

mod assignment;
pub mod bytes;
mod claim;
mod formula;
mod grown;
mod ledger;
pub mod limits;
#[allow(unsafe_code)]
mod raw;
mod record;
mod refusal;
mod rule;

pub use assignment::{Assignment, Value};
pub use claim::Claim;
pub use formula::{AsFace, AsInterval, Face, Interval};
pub use ledger::{Boundary, End, Ledger, Made, Step};
pub use record::{Record, Steps};
pub use refusal::Refusal;
pub use rule::Rule;

/// All that the program `facesteps` prints for an input: of the claim in its first line, which is put to an empty ledger
/// of 65,536 bytes, the line of each step, then `yes` and the step, or `refused` and the number.
///
/// ```
/// assert_eq!(linefeijoa::facesteps("entails z ft ff"), "0 face.ft [] (face z ft)\n1 face.ff [] (face z ff)\nrefused 9\n");
/// assert_eq!(linefeijoa::facesteps("hello"), "refused 11\n");
/// ```
pub fn facesteps(input: impl AsRef<[u8]>) -> String {
    grown::text(65_536, |out| bytes::facesteps(input.as_ref(), out)).expect("6 is met by more room")
}

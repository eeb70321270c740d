//! The library's own functions: one for each C function, slices in, its number out.
//!
//! Every byte string may be lent. Refusal q is answered as -q (10 of the desk with its step, [`refusal_of`]); the
//! functions that end in `_of` take answers apart. `include/linefeijoa.h` says of each function what is answered,
//! refused and left. The types of this crate stand on these functions; with them alone every refusal can be met:
//!
//! ```
//! use linefeijoa::{Refusal, bytes};
//!
//! let mut ledger = [0; 2_048];
//! let at0 = [2, 0];
//! let answer = bytes::shift_face(&mut ledger, &at0, 0, &mut []);
//! assert_eq!(answer, -6);
//! assert_eq!(bytes::made_of(answer), Err(Refusal::ShortOutput));
//!
//! let mut out = [0xee; 4];
//! let (step, length) = bytes::made_of(bytes::shift_face(&mut ledger, &at0, 0, &mut out))?;
//! assert_eq!((step.number(), length, out), (2, 2, [2, 1, 0xee, 0xee]));
//! # Ok::<(), Refusal>(())
//! ```
pub use crate::raw::{
    boundary, counterexample, endpoint, entails, face, facesteps, fence_face, fence_interval, forall, interval, kind,
    normal, operands, read_claim, read_face, read_interval, reference, repeats, rule_name, shift_face, shift_interval,
    step_desk, substitute_face, substitute_interval, well_formed, write_face, write_interval, write_step,
};
use crate::{Refusal, Step};
use std::ops::Range;

/// The low 32 bits.
const LOW: u64 = 0xffff_ffff;

/// The refusal that an answer is, of any function; none where it is not refused.
///
/// # Panics
///
/// Where no function answers this number. So do the others here.
pub fn refusal_of(answer: i64) -> Option<Refusal> {
    if answer >= 0 {
        return None;
    }
    // 1 to 13 in the lowest four bits; for 10 the step above them, which is 0 else.
    let bits = answer.unsigned_abs();
    let (number, step) = (bits & 15, bits >> 4);
    let known = if step > LOW || step > 0 && number != 10 {
        None
    } else {
        Refusal::numbered(number as u8, Step::new(step as u32))
    };
    Some(known.unwrap_or_else(|| panic!("no function answers {answer}")))
}

/// An answer that is not refused.
fn accepted(answer: i64) -> Result<u64, Refusal> {
    refusal_of(answer).map_or(Ok(answer as u64), Err)
}

/// Of [`well_formed`] and [`step_desk`]: how many steps there are; of [`fence_face`] and [`fence_interval`]: how many
/// nodes.
pub fn count_of(answer: i64) -> Result<u32, Refusal> {
    accepted(answer).map(|n| n as u32)
}

/// Of the calls, [`face`] to [`entails`]: the step with the call's own judgement.
pub fn step_of(answer: i64) -> Result<Step, Refusal> {
    accepted(answer).map(|n| Step::new((n & LOW) as u32))
}

/// Of a call with results: the step, and the length of the result in front of each output.
pub fn made_of(answer: i64) -> Result<(Step, usize), Refusal> {
    accepted(answer).map(|n| (Step::new((n & LOW) as u32), (n >> 32) as usize))
}

/// Of the readers and writers, [`counterexample`], [`normal`], [`rule_name`] and [`facesteps`]: the length of what is in
/// front of the output.
pub fn length_of(answer: i64) -> Result<usize, Refusal> {
    accepted(answer).map(|n| n as usize)
}

/// Of [`read_claim`]: d, and the lengths of the two faces.
pub fn claim_of(answer: i64) -> Result<(u8, usize, usize), Refusal> {
    accepted(answer).map(|n| (n as u8, (n >> 16 & 0xffff) as usize, (n >> 32) as usize))
}

/// Of [`operands`]: the part of the ledger, empty where there is no such step.
pub fn part_of(answer: i64) -> Range<usize> {
    let (start, length) = (answer as u64 & LOW, answer as u64 >> 32);
    start as usize..(start + length) as usize
}

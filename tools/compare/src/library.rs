//! Our library over slices (`linefeijoa::bytes`): a call of the lists, and formulas of either sort.
use crate::lent::Lent;
use judge::call::{Answer, Call, Name};
use judge::formula::Sort;
use linefeijoa::bytes;
pub use linefeijoa::bytes::{step_desk, well_formed};

/// For endpoint: 0 is i0, and anything else i1.
fn end(call: &Call) -> u64 {
    let words = [1, 2, 256, 1 << 32, u64::MAX];
    let any = call.operands[0].len() + call.operands[1].len();
    if call.one { words[any % words.len()] } else { 0 }
}

/// Asks our library one call. The outputs are as many as the call has.
pub fn ask(ledger: &mut [u8], call: &Call, outputs: &mut [Lent]) -> i64 {
    let number = call.number as u64;
    let operand = |i: usize| &call.operands[i][..];
    let a = operand(0);
    match (call.name, outputs) {
        (Name::Face, []) => bytes::face(ledger, number, a),
        (Name::Interval, []) => bytes::interval(ledger, number, a),
        (Name::Boundary, [zero, one]) => bytes::boundary(ledger, a, zero.slice(), one.slice()),
        (Name::Endpoint, []) => bytes::endpoint(ledger, number, a, operand(1), end(call)),
        (Name::Forall, [out]) => bytes::forall(ledger, a, number, out.slice()),
        (Name::FaceShift, [out]) => bytes::shift_face(ledger, a, number, out.slice()),
        (Name::IntervalShift, [out]) => bytes::shift_interval(ledger, a, number, out.slice()),
        (Name::FaceSubstitute, [out]) => bytes::substitute_face(ledger, a, number, operand(1), out.slice()),
        (Name::IntervalSubstitute, [out]) => bytes::substitute_interval(ledger, a, number, operand(1), out.slice()),
        (Name::Entails, []) => bytes::entails(ledger, number, a, operand(1)),
        (name, outputs) => panic!("{name:?} with {} outputs", outputs.len()),
    }
}

/// Reads a text as a formula of a sort.
pub fn read(sort: Sort, text: &[u8], out: &mut [u8]) -> i64 {
    if sort == Sort::Face { bytes::read_face(text, out) } else { bytes::read_interval(text, out) }
}

/// Writes the text of a formula of a sort.
pub fn write(sort: Sort, operand: &[u8], out: &mut [u8]) -> i64 {
    if sort == Sort::Face { bytes::write_face(operand, out) } else { bytes::write_interval(operand, out) }
}

/// Asks whether a formula of a sort is within the producer's limits.
pub fn fence(sort: Sort, operand: &[u8]) -> i64 {
    if sort == Sort::Face { bytes::fence_face(operand) } else { bytes::fence_interval(operand) }
}

/// An answer as the library gives it: step + 2^32 * length of the result, or
/// the refusal's number with a minus. Both faces of a boundary are as long.
pub fn number(answer: &Answer) -> i64 {
    match answer {
        Answer::Yes(step, results) => {
            let length = results.first().map_or(0, Vec::len);
            assert!(results.iter().all(|r| r.len() == length), "results of different lengths");
            *step as i64 + ((length as i64) << 32)
        }
        Answer::Refused(question) => -(*question as i64),
    }
}

/// The library's number as yes and the step, or refused and the number.
pub fn said(number: i64) -> String {
    if number < 0 { format!("refused {}", -number) } else { format!("yes {}", number & 0xffff_ffff) }
}

/// The library's number with all that is in it.
pub fn words(number: i64) -> String {
    if number < 0 {
        return format!("{number}");
    }
    format!("{number} (step {}, length {})", number & 0xffff_ffff, number >> 32)
}

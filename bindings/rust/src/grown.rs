//! Output slices that grow where they are too short.
use crate::Refusal;
use crate::bytes::length_of;

/// What a writer puts in front of its output, into a slice of `first` bytes, or of four times as many until it fits.
pub(crate) fn grown(first: usize, write: impl Fn(&mut [u8]) -> i64) -> Result<Vec<u8>, Refusal> {
    let mut out = vec![0; first];
    loop {
        match length_of(write(&mut out)) {
            // Nothing was written, so the zeros need no copy.
            Err(Refusal::ShortOutput) => out = vec![0; 4 * out.len().max(64)],
            Err(refusal) => return Err(refusal),
            Ok(length) => {
                out.truncate(length);
                out.shrink_to_fit();
                return Ok(out);
            }
        }
    }
}

/// The same as a text: everything that the library writes as text is ASCII.
pub(crate) fn text(first: usize, write: impl Fn(&mut [u8]) -> i64) -> Result<String, Refusal> {
    grown(first, write).map(|bytes| String::from_utf8(bytes).expect("the library writes ASCII"))
}

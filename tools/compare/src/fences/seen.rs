//! What a reader of the heads in their order meets: counts for the report, and which questions one operand breaks. No recursion,
//! and nothing of the oracle's door or the published functions, which are held against it.
use judge::formula::{Sort, has_dimension, part_count};
use std::iter::repeat_n;

const MOST_NODES: usize = 511;
const LAST_DIMENSION: u8 = 254;
const DEEPEST: usize = 32;
const LAST_INDEX: u8 = 32;

/// The pairs of questions that one operand can break.
pub const PAIRS: [(u8, u8); 6] = [(2, 3), (2, 4), (2, 13), (3, 4), (3, 13), (4, 13)];

/// Of bytes that are no formula: what was read before the end of the bytes, a byte that is no head, or the end of a formula.
#[derive(Default)]
pub struct Seen {
    /// Whether the bytes are exactly one formula.
    pub whole: bool,
    pub nodes: usize,
    pub depth: usize,
    /// The largest dimension.
    pub index: Option<u8>,
    /// Whether a dimension is above the producer's limit and not above the other one.
    between: bool,
}

impl Seen {
    fn dimension(&mut self, n: u8) {
        self.index = self.index.max(Some(n));
        self.between |= (LAST_INDEX + 1..=LAST_DIMENSION).contains(&n);
    }
    /// The questions that are answered no, in their order. A dimension of 255 alone breaks 4 and is not counted for 13.
    pub fn broken(&self) -> Vec<u8> {
        let asked = [
            (2, !self.whole),
            (3, self.nodes > MOST_NODES),
            (4, self.index > Some(LAST_DIMENSION)),
            (13, self.depth > DEEPEST || self.between),
        ];
        asked.into_iter().filter(|(_, no)| *no).map(|(question, _)| question).collect()
    }
}

pub fn seen(sort: Sort, bytes: &[u8]) -> Seen {
    let (mut seen, mut at) = (Seen::default(), 0);
    // The depths of the parts that are still to come, that of the next one last.
    let mut waiting = vec![0];
    while let Some(depth) = waiting.pop() {
        let Some(&kind) = bytes.get(at).filter(|kind| sort.has(**kind)) else { return seen };
        at += 1;
        seen.nodes += 1;
        seen.depth = seen.depth.max(depth);
        if has_dimension(kind) {
            let Some(&n) = bytes.get(at) else { return seen };
            at += 1;
            seen.dimension(n);
        }
        waiting.extend(repeat_n(depth + 1, part_count(kind)));
    }
    seen.whole = at == bytes.len();
    seen
}

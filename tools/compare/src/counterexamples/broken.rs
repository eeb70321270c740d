//! Operands, numbers and outputs that break the questions 2, 3, 4, 6, 8 and 12, put together in every way.
use judge::formula::{AND, AT0, AT1, FF, FT, I0, OR};

/// The pairs that can be broken at once: all but 2 and 12, since what is no face implies nothing.
pub const PAIRS: [(u8, u8); 14] = [
    (2, 3),
    (2, 4),
    (2, 6),
    (2, 8),
    (3, 4),
    (3, 6),
    (3, 8),
    (3, 12),
    (4, 6),
    (4, 8),
    (4, 12),
    (6, 8),
    (6, 12),
    (8, 12),
];

/// So many literals of dimensions 0 to 3 under fand, the last one of this dimension.
fn row(literals: usize, last: u8) -> Vec<u8> {
    let mut bytes = vec![AND; literals - 1];
    bytes.extend((0..literals).flat_map(|i| [AT0, i as u8 % 4]));
    *bytes.last_mut().expect("a literal") = last;
    bytes
}

pub fn operands() -> Vec<Vec<u8>> {
    let (wide, cut) = (row(257, 1), row(257, 1)[..700].to_vec());
    let behind = [&wide[..], &[FT]].concat();
    vec![
        // Faces of few dimensions, within the limits.
        vec![FF],
        vec![FT],
        vec![AT0, 0],
        vec![AT1, 0],
        vec![OR, AT0, 0, AT1, 1],
        vec![AND, AT0, 0, AT1, 0],
        row(256, 1),
        // No faces.
        vec![],
        vec![6],
        vec![I0],
        vec![AT0],
        vec![AND, FT],
        vec![FT, FT],
        cut,
        behind,
        // Too many nodes, with low dimensions and high ones.
        [vec![OR; 300], vec![FT; 301]].concat(),
        wide,
        row(257, 254),
        row(257, 255),
        row(1_000, 255),
        // Large dimensions.
        vec![AT0, 255],
        vec![OR, FT, AT1, 255],
        row(256, 255),
        // Dimensions that are not below most numbers.
        vec![AT1, 1],
        vec![AT0, 200],
        vec![AND, AT0, 0, AT1, 254],
        row(256, 254),
    ]
}

pub const NUMBERS: [u64; 16] =
    [0, 1, 2, 4, 7, 200, 201, 254, 255, 256, 257, 511, 65_536, 1 << 32, (1 << 32) + 1, u64::MAX];

/// Outputs of exactly d bytes, one less, one more, none, and of lengths about the limits of d.
pub fn rooms(d: u64) -> Vec<usize> {
    let least = d.min(600) as usize;
    let mut all = vec![0, 1, least.saturating_sub(1), least, least + 1, 254, 255, 256, 1_000];
    all.sort_unstable();
    all.dedup();
    all
}

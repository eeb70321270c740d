//! What `lf_counterexample` should answer, by its definition alone: the questions in their order, and every assignment tried.
use judge::formula::{FF, FT, Sort, Tree, read_whole};
use judge::ledger::{LAST_DIMENSION, MOST_NODES};
use judge::meaning::{Assignment, OPEN, UNDETERMINED, holds};

/// The assignment, or the refusal.
pub type Expected = Result<Vec<u8>, u8>;

/// How many dimensions are zero or one.
pub fn determined(at: &[u8]) -> usize {
    at.iter().filter(|value| **value < UNDETERMINED).count()
}

/// The assignment that bytes are; dimensions without a byte are undetermined.
pub fn of_bytes(bytes: &[u8]) -> Assignment {
    let mut at = OPEN;
    at[..bytes.len()].copy_from_slice(bytes);
    at
}

/// Every assignment of these dimensions, the others being undetermined: those that determine fewer first, then in byte order.
pub fn in_order(dims: &[usize]) -> Vec<Assignment> {
    let mut all = vec![OPEN];
    for n in dims {
        let with = |at: &Assignment, value: u8| {
            let mut at = *at;
            at[*n] = value;
            at
        };
        all = all.iter().flat_map(|at| (0..=UNDETERMINED).map(|value| with(at, value))).collect();
    }
    all.sort_by_key(|at| (determined(at), *at));
    all
}

/// The first of these that satisfies a and not b.
pub fn first<'a>(all: &'a [Assignment], a: &Tree, b: &Tree) -> Option<&'a Assignment> {
    all.iter().find(|at| holds(a, at) && !holds(b, at))
}

/// What is asked.
pub struct Question<'a> {
    pub d: u64,
    pub a: &'a [u8],
    pub b: &'a [u8],
    pub room: usize,
}

/// The questions that are answered no, in their order, as far as the bytes can be asked: 3, 4 and 8 of operands that are faces,
/// 12 where that is plain to see.
pub fn broken(question: &Question) -> Vec<u8> {
    let faces: Vec<_> = [question.a, question.b].iter().filter_map(|bytes| read_whole(bytes, Sort::Face)).collect();
    let any = |no: &dyn Fn(&Tree) -> bool| faces.iter().any(no);
    let plain = matches!(&faces[..], [a, b] if a == b || a.kind == FF || b.kind == FT);
    let asked = [
        (2, faces.len() < 2),
        (3, any(&|f| f.nodes() > MOST_NODES)),
        (4, any(&|f| f.bound() > LAST_DIMENSION + 1) || question.d > LAST_DIMENSION as u64 + 1),
        (6, (question.room as u64) < question.d),
        (8, any(&|f| f.bound() as u64 > question.d)),
        (12, plain),
    ];
    asked.into_iter().filter(|(_, no)| *no).map(|(number, _)| number).collect()
}

/// The answer, where the faces that are let in have few dimensions: only these are tried, since none that does not occur is
/// determined in an assignment that determines the fewest.
pub fn expected(question: &Question) -> Expected {
    if let Some(refusal) = broken(question).first() {
        return Err(*refusal);
    }
    let [a, b] = [question.a, question.b].map(|bytes| read_whole(bytes, Sort::Face).expect("a face"));
    let mut dims = vec![];
    [&a, &b].iter().for_each(|f| f.dims(&mut |n| dims.push(usize::from(n))));
    dims.sort_unstable();
    dims.dedup();
    let all = in_order(&dims);
    first(&all, &a, &b).map(|at| at[..question.d as usize].to_vec()).ok_or(12)
}

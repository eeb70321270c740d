//! Smaller inputs that still differ.
use crate::listings::facesteps::line;
use crate::listings::made;
use crate::texts::model;
use judge::formula::{Sort, Tree, read_whole};
use std::time::{Duration, Instant};

/// How long smaller inputs are tried.
const PATIENCE: Duration = Duration::from_secs(10);

/// All that stands below the root.
fn below<'a>(t: &'a Tree, out: &mut Vec<&'a Tree>) {
    for part in &t.parts {
        out.push(part);
        below(part, out);
    }
}

/// The parts of a formula, small ones first, and the formula with something smaller in one place.
fn lesser(t: &Tree) -> Vec<Tree> {
    let mut parts = vec![];
    below(t, &mut parts);
    parts.sort_by_key(|part| part.nodes());
    parts.into_iter().cloned().chain(trimmed(t)).collect()
}

/// The formula with a part in place of the whole somewhere, or a lower dimension.
fn trimmed(t: &Tree) -> Vec<Tree> {
    let mut out = t.parts.clone();
    for (i, part) in t.parts.iter().enumerate() {
        for other in trimmed(part) {
            let mut copy = t.clone();
            copy.parts[i] = other;
            out.push(copy);
        }
    }
    if t.dim > 0 {
        out.push(Tree { dim: t.dim / 2, ..t.clone() });
        out.push(Tree { dim: t.dim - 1, ..t.clone() });
    }
    out
}

/// Without some bytes: halves, quarters, .., single ones.
fn cuts(bytes: &[u8]) -> Vec<Vec<u8>> {
    let mut out = vec![];
    let mut length = bytes.len().div_ceil(2);
    while length > 0 {
        for start in (0..bytes.len()).step_by(length) {
            let end = (start + length).min(bytes.len());
            out.push([&bytes[..start], &bytes[end..]].concat());
        }
        length = if length == 1 { 0 } else { length.div_ceil(2) };
    }
    out
}

/// Smaller inputs of `facesteps`: the same claim spelled plainly, with less in it, and bytes left out.
pub fn inputs(input: &[u8]) -> Vec<Vec<u8>> {
    let mut out = vec![];
    if let Ok((d, a, b)) = model::claim(line(input)) {
        let tree = |bytes: &[u8]| read_whole(bytes, Sort::Face).unwrap();
        let (a, b) = (tree(&a), tree(&b));
        out.push(made::plain(&(d, a.clone(), b.clone())));
        out.extend(lesser(&a).into_iter().map(|a| made::plain(&(d, a, b.clone()))));
        out.extend(lesser(&b).into_iter().map(|b| made::plain(&(d, a.clone(), b))));
        let numbers = [d / 2, d.saturating_sub(1)];
        out.extend(numbers.map(|d| made::plain(&(d, a.clone(), b.clone()))));
    }
    out.extend(cuts(input));
    out
}

/// Smaller operands.
pub fn operands(sort: Sort, bytes: &[u8]) -> Vec<Vec<u8>> {
    let parts = read_whole(bytes, sort).map_or(vec![], |t| lesser(&t));
    parts.iter().map(Tree::bytes).chain(cuts(bytes)).collect()
}

/// What is left of the bytes when smaller ones are tried as long as they still differ.
pub fn smallest(bytes: &[u8], candidates: impl Fn(&[u8]) -> Vec<Vec<u8>>, differs: impl Fn(&[u8]) -> bool) -> Vec<u8> {
    smallest_within(PATIENCE, bytes, candidates, differs)
}

/// The same, tried for this time.
pub fn smallest_within(
    patience: Duration,
    bytes: &[u8],
    candidates: impl Fn(&[u8]) -> Vec<Vec<u8>>,
    mut differs: impl FnMut(&[u8]) -> bool,
) -> Vec<u8> {
    let size = |b: &[u8]| (b.len(), b.iter().map(|b| u64::from(*b)).sum::<u64>());
    let (mut best, start) = (bytes.to_vec(), Instant::now());
    loop {
        let smaller = candidates(&best).into_iter().filter(|c| size(c) < size(&best));
        let mut tried = smaller.take_while(|_| start.elapsed() < patience);
        match tried.find(|c| differs(c)) {
            Some(found) => best = found,
            None => return best,
        }
    }
}

//! Texts to read: formulas and claims printed with any spaces and parentheses that the grammar lets through, and damaged copies.
use judge::formula::{HEADS, Sort, Tree, has_dimension};
use judge::random::{Random, SHAPES, face, interval};

const WORDS: [&str; 22] = [
    "ff", "ft", "at0", "at1", "fand", "for", "i0", "i1", "dim", "neg", "meet", "join", "z", "s", "entails", "f", "fff",
    "at", "(", ")", "((", "))",
];
const BYTES: [u8; 12] = [b' ', b'\n', b'(', b')', b'\t', b'\r', 0, 127, 128, 255, b'z', b's'];

fn gap(random: &mut Random, out: &mut Vec<u8>, needed: bool) {
    let count = if random.chance(80) { usize::from(needed) } else { random.below(4) + usize::from(needed) };
    for _ in 0..count {
        out.push(if random.chance(90) { b' ' } else { b'\n' });
    }
}

fn word(random: &mut Random, out: &mut Vec<u8>, w: &str) {
    let needed = out.last().is_some_and(|b| !b" \n()".contains(b));
    gap(random, out, needed);
    out.extend(w.as_bytes());
}

fn sign(random: &mut Random, out: &mut Vec<u8>, b: u8) {
    let loose = b == b'(' && random.chance(70);
    gap(random, out, loose && !out.is_empty());
    out.push(b);
}

pub fn number(random: &mut Random, out: &mut Vec<u8>, n: usize) {
    for _ in 0..n {
        sign(random, out, b'(');
        word(random, out, "s");
    }
    constant(random, out, "z");
    for _ in 0..n {
        sign(random, out, b')');
    }
}

fn constant(random: &mut Random, out: &mut Vec<u8>, w: &str) {
    let listed = random.chance(10);
    if listed {
        sign(random, out, b'(');
    }
    word(random, out, w);
    if listed {
        sign(random, out, b')');
    }
}

fn head(kind: u8) -> &'static str {
    HEADS.iter().find(|(k, _)| *k == kind).unwrap().1
}

pub fn formula(random: &mut Random, out: &mut Vec<u8>, t: &Tree) {
    if t.parts.is_empty() && !has_dimension(t.kind) {
        return constant(random, out, head(t.kind));
    }
    sign(random, out, b'(');
    word(random, out, head(t.kind));
    if has_dimension(t.kind) {
        number(random, out, usize::from(t.dim));
    }
    for part in &t.parts {
        formula(random, out, part);
    }
    sign(random, out, b')');
}

fn tree(random: &mut Random, sort: Sort, most: usize) -> Tree {
    // Half of the large ones stand at the limit of 511 nodes.
    let nodes = if most > 500 && random.chance(50) { random.between(507, most) } else { random.size(most) };
    let shape = *random.pick(&SHAPES);
    let dims: Vec<u8> = match random.below(4) {
        0 => vec![],
        1 => vec![0, 1],
        2 => (0..6).collect(),
        _ => vec![0, 253, 254, 255],
    };
    match sort {
        Sort::Face => face(random, shape, nodes, &dims),
        Sort::Interval => interval(random, shape, nodes, &dims),
    }
}

/// The text of some formula, at times of more nodes than are let in.
pub fn formula_text(random: &mut Random, sort: Sort) -> Vec<u8> {
    let most = *random.pick(&[3, 9, 30, 515]);
    let t = tree(random, sort, most);
    let mut out = vec![];
    formula(random, &mut out, &t);
    gap(random, &mut out, false);
    out
}

/// The text of some claim.
pub fn claim_text(random: &mut Random, most: usize) -> Vec<u8> {
    let mut out = vec![];
    word(random, &mut out, "entails");
    let d = *random.pick(&[0, 1, 2, 3, 5, 254, 255, 256]);
    number(random, &mut out, d);
    for _ in 0..2 {
        let t = tree(random, Sort::Face, most);
        formula(random, &mut out, &t);
    }
    gap(random, &mut out, false);
    out
}

/// One or a few places of the text changed, at times only tokens.
pub fn damaged(random: &mut Random, text: &[u8]) -> Vec<u8> {
    let mut out = text.to_vec();
    for _ in 0..random.between(1, 3) {
        let at = random.below(out.len() + 1);
        let end = (at + random.below(4)).min(out.len());
        let put: Vec<u8> = match random.below(5) {
            0 => vec![],
            1 => vec![*random.pick(&BYTES)],
            2 => vec![random.below(256) as u8],
            3 => format!(" {} ", random.pick(&WORDS)).into_bytes(),
            _ => random.pick(&WORDS).as_bytes().to_vec(),
        };
        out.splice(at..end, put);
    }
    if random.chance(10) {
        let cut = random.below(out.len() + 1);
        out.truncate(cut);
    }
    out
}

/// Tokens in a row.
pub fn soup(random: &mut Random) -> Vec<u8> {
    let mut out = vec![];
    for _ in 0..random.below(14) {
        out.extend(random.pick(&WORDS).as_bytes());
        gap(random, &mut out, false);
    }
    out
}

//! The ledger's bytes: written from the Rust's steps, and read back from the
//! bytes alone. Document 01, "The ledger".
use crate::desk::expressions;
use crate::formula::{self, HEADS, I0, I1, Sort, Tree};
use crate::rules;
use published::cubical::engine::term::{FastMap, Sexp, atom, call, numeral};
use std::cell::RefCell;
use std::sync::LazyLock;

/// The longest ledger that question 1 lets in.
pub const LONGEST: usize = 1_048_576;
pub const MOST_NODES: usize = 511;
pub const LAST_DIMENSION: usize = 254;

/// A step as the Rust keeps it: rule, references, judgement.
pub type Step = (String, Vec<usize>, Sexp);

thread_local! {
    // Kind numbers by rule name, because looking through 75 names is slow.
    static KINDS: RefCell<FastMap<String, usize>> = RefCell::default();
}

/// The kind of a rule that the Rust emitted.
pub fn kind(rule: &str) -> usize {
    KINDS.with(|known| {
        if let Some(kind) = known.borrow().get(rule) {
            return *kind;
        }
        let kind = rules::kind(rule).unwrap_or_else(|| panic!("rule {rule} is not in document 01"));
        known.borrow_mut().insert(rule.to_owned(), kind);
        kind
    })
}

pub fn shape(s: &Sexp) -> (&str, &[Sexp]) {
    match s {
        Sexp::Atom(a) => (a, &[]),
        Sexp::List(xs) => (xs[0].atom().expect("a head is an atom"), &xs[1..]),
    }
}

/// A unary number's value.
pub fn natural(mut s: &Sexp) -> usize {
    let mut n = 0;
    while let ("s", [rest]) = shape(s) {
        n += 1;
        s = rest;
    }
    assert!(matches!(shape(s), ("z", [])), "not a number: {s}");
    n
}

fn kind_byte(head: &str) -> u8 {
    let found = HEADS.iter().find(|(_, h)| *h == head);
    found.unwrap_or_else(|| panic!("not a formula: {head}")).0
}

fn byte(n: usize) -> u8 {
    u8::try_from(n).expect("a number of one byte")
}

pub fn write_formula(s: &Sexp, out: &mut Vec<u8>) {
    let (head, parts) = shape(s);
    let kind = kind_byte(head);
    out.push(kind);
    if formula::has_dimension(kind) {
        out.push(byte(natural(&parts[0])));
    } else {
        parts.iter().for_each(|p| write_formula(p, out));
    }
}

fn write_context(mut s: &Sexp, out: &mut Vec<u8>) {
    let start = out.len();
    let mut count = 0_u16;
    out.extend([0, 0]);
    while let ("fc", [face, rest]) = shape(s) {
        write_formula(face, out);
        count += 1;
        s = rest;
    }
    out[start..start + 2].copy_from_slice(&count.to_le_bytes());
}

/// The operands' bytes of a judgement.
pub fn write_judgement(s: &Sexp, out: &mut Vec<u8>) {
    let (predicate, parts) = shape(s);
    let sorts = rules::operands(predicate).expect("a predicate of document 01");
    assert_eq!(sorts.len(), parts.len(), "operands of {s}");
    for (sort, part) in sorts.bytes().zip(parts) {
        match sort {
            b'n' => out.push(byte(natural(part))),
            b'c' => write_context(part, out),
            _ => write_formula(part, out),
        }
    }
}

/// One record: length, kind, references, operands.
pub fn write_record((rule, refs, judgement): &Step, out: &mut Vec<u8>) {
    let start = out.len();
    out.extend([0; 4]);
    out.extend((kind(rule) as u16).to_le_bytes());
    refs.iter().for_each(|r| out.extend((*r as u32).to_le_bytes()));
    write_judgement(judgement, out);
    let length = (out.len() - start - 4) as u32;
    out[start..start + 4].copy_from_slice(&length.to_le_bytes());
}

/// The used part of a ledger: L and its records.
pub fn whole(records: &[u8]) -> Vec<u8> {
    let mut out = (records.len() as u32).to_le_bytes().to_vec();
    out.extend(records);
    out
}

/// A formula of our own as the Rust's expression.
pub fn expression(t: &Tree) -> Sexp {
    let head = HEADS.iter().find(|(k, _)| *k == t.kind).unwrap().1;
    if formula::has_dimension(t.kind) {
        call(head, [numeral(usize::from(t.dim))])
    } else if t.parts.is_empty() {
        atom(head)
    } else {
        call(head, t.parts.iter().map(expression).collect::<Vec<_>>())
    }
}

/// How many references each rule has: its judgements after the first.
static REFERENCES: LazyLock<[usize; 75]> = LazyLock::new(|| rules::RULES.map(|r| expressions(r).len() - 2));

/// The same by the rule's kind.
pub fn references(kind: usize) -> usize {
    REFERENCES[kind - 1]
}

/// A reader over bytes that answers None where they end early or are wrong.
struct Reader<'a>(&'a [u8]);

impl<'a> Reader<'a> {
    fn part(&mut self, n: usize) -> Option<&'a [u8]> {
        let (part, rest) = self.0.split_at_checked(n)?;
        self.0 = rest;
        Some(part)
    }
    fn number(&mut self, n: usize) -> Option<usize> {
        Some(self.part(n)?.iter().rev().fold(0, |sum, b| sum * 256 + usize::from(*b)))
    }
    fn formula(&mut self, sort: Sort) -> Option<Tree> {
        let (tree, rest) = formula::read(self.0, sort)?;
        self.0 = rest;
        let fits = tree.nodes() <= MOST_NODES && tree.bound() <= LAST_DIMENSION + 1;
        fits.then_some(tree)
    }
    fn context(&mut self) -> Option<Sexp> {
        let count = self.number(2)?;
        let faces = (0..count).map(|_| self.formula(Sort::Face)).collect::<Option<Vec<_>>>()?;
        let nodes: usize = faces.iter().map(Tree::nodes).sum();
        let fold = |rest, f: &Tree| call("fc", [expression(f), rest]);
        (nodes <= MOST_NODES).then(|| faces.iter().rev().fold(atom("fnil"), fold))
    }
    fn operand(&mut self, sort: u8, predicate: &str) -> Option<Sexp> {
        match sort {
            // d, m and n may be any byte; k keeps to a dimension's limit.
            b'n' => {
                let n = self.number(1)?;
                let k = !matches!(predicate, "lt" | "le" | "interval" | "face" | "entails" | "local");
                (!k || n <= LAST_DIMENSION).then(|| numeral(n))
            }
            b'c' => self.context(),
            b'f' => self.formula(Sort::Face).map(|t| expression(&t)),
            b'e' => self.formula(Sort::Interval).filter(|t| matches!(t.kind, I0 | I1)).map(|t| expression(&t)),
            _ => self.formula(Sort::Interval).map(|t| expression(&t)),
        }
    }
    fn step(&mut self, own: usize) -> Option<Step> {
        let length = self.number(4)?;
        let mut record = Reader(self.part(length)?);
        let kind = record.number(2).filter(|k| (1..=rules::RULES.len()).contains(k))?;
        let rule = rules::name(kind);
        let refs = (0..references(kind)).map(|_| record.number(4).filter(|r| *r < own));
        let refs = refs.collect::<Option<Vec<_>>>()?;
        let predicate = rules::predicate(rule);
        let sorts = rules::operands(predicate)?;
        let parts = sorts.bytes().map(|s| record.operand(s, predicate)).collect::<Option<Vec<_>>>()?;
        record.0.is_empty().then(|| (rule.to_owned(), refs, call(predicate, parts)))
    }
}

/// The steps of a ledger's used part; None where it is not well formed.
pub fn read(used: &[u8]) -> Option<Vec<Step>> {
    let mut reader = Reader(used);
    if reader.number(4)? != used.len() - 4 {
        return None;
    }
    let mut steps = vec![];
    while !reader.0.is_empty() {
        steps.push(reader.step(steps.len())?);
    }
    Some(steps)
}

/// The plain sum that stands for long ledgers in the sample (Adler's halves).
pub fn sum(bytes: &[u8]) -> (u32, u32) {
    bytes.iter().fold((1, 0), |(a, b), byte| {
        let a = (a + u32::from(*byte)) % 65_521;
        (a, (b + a) % 65_521)
    })
}

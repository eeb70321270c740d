//! A ledger as a plain list of steps. Emit looks through all of them for the lowest equal one.
use judge::formula::Tree;
use judge::ledger;
use judge::rules;
use std::collections::HashMap;

#[derive(Clone, PartialEq, Debug)]
pub struct Step {
    pub kind: usize,
    pub references: Vec<usize>,
    pub operands: Vec<u8>,
}

impl Step {
    pub fn predicate(&self) -> &'static str {
        rules::predicate(rules::name(self.kind))
    }
    fn says(&self, predicate: &str, operands: &[u8]) -> bool {
        self.operands == operands && self.predicate() == predicate
    }
    /// The bytes of its record: length, kind, references, operands.
    pub fn length(&self) -> usize {
        4 + 2 + 4 * self.references.len() + self.operands.len()
    }
    fn write(&self, out: &mut Vec<u8>) {
        out.extend((self.length() as u32 - 4).to_le_bytes());
        out.extend((self.kind as u16).to_le_bytes());
        self.references.iter().for_each(|r| out.extend((*r as u32).to_le_bytes()));
        out.extend(&self.operands);
    }
}

/// The records of these steps.
pub fn records(steps: &[Step]) -> Vec<u8> {
    let mut out = vec![];
    steps.iter().for_each(|s| s.write(&mut out));
    out
}

/// The steps of the records of a ledger that is well formed.
pub fn read(mut records: &[u8]) -> Vec<Step> {
    let number = |bytes: &[u8]| bytes.iter().rev().fold(0, |sum, b| sum * 256 + usize::from(*b));
    let mut steps = vec![];
    while !records.is_empty() {
        let (record, rest) = records[4..].split_at(number(&records[..4]));
        let kind = number(&record[..2]);
        let (references, operands) = record[2..].split_at(4 * ledger::references(kind));
        let references = references.chunks(4).map(number).collect();
        steps.push(Step { kind, references, operands: operands.to_vec() });
        records = rest;
    }
    steps
}

/// One operand of a judgement.
pub enum Operand<'a> {
    Number(usize),
    Formula(&'a Tree),
    Context(&'a [&'a Tree]),
}

/// The operands in printed order, as bytes.
pub fn bytes(operands: &[Operand]) -> Vec<u8> {
    let mut out = vec![];
    for operand in operands {
        match operand {
            Operand::Number(n) => out.push(u8::try_from(*n).expect("a number of one byte")),
            Operand::Formula(t) => t.write(&mut out),
            Operand::Context(faces) => {
                out.extend((faces.len() as u16).to_le_bytes());
                faces.iter().for_each(|f| f.write(&mut out));
            }
        }
    }
    out
}

/// What a call answers, or the refusal that ends it.
pub type Outcome<T> = Result<T, usize>;

/// A ledger of this length, and its steps.
pub struct Plain {
    pub length: usize,
    pub steps: Vec<Step>,
    /// The bytes 4 + L.
    pub used: usize,
    /// How the searches of this call that are over ended, by their judgement; None where each is made again.
    pub over: Option<HashMap<Vec<u8>, Outcome<usize>>>,
    /// The judgements of all searches of this call, where they are asked for.
    pub met: Option<Vec<Vec<u8>>>,
}

impl Plain {
    pub fn new(length: usize, steps: Vec<Step>) -> Self {
        let used = 4 + steps.iter().map(Step::length).sum::<usize>();
        Self { length, steps, used, over: None, met: None }
    }
    /// The same answers and steps, where searches repeat themselves much sooner: a search that is over would find all
    /// its steps again.
    pub fn remembering(length: usize, steps: Vec<Step>) -> Self {
        Self { over: Some(HashMap::new()), ..Self::new(length, steps) }
    }
    /// The lowest step with this judgement; else one more, if there is room.
    pub fn emit(&mut self, rule: &str, references: &[usize], operands: &[Operand]) -> Outcome<usize> {
        let operands = bytes(operands);
        let predicate = rules::predicate(rule);
        if let Some(i) = self.steps.iter().position(|s| s.says(predicate, &operands)) {
            return Ok(i);
        }
        let step = Step { kind: ledger::kind(rule), references: references.to_vec(), operands };
        if self.used + step.length() > self.length {
            return Err(7);
        }
        self.used += step.length();
        self.steps.push(step);
        Ok(self.steps.len() - 1)
    }
    /// The first so many steps are left.
    pub fn undo(&mut self, count: usize) {
        self.steps.truncate(count);
        self.used = 4 + self.steps.iter().map(Step::length).sum::<usize>();
    }
}

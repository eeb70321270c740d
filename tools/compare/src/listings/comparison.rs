//! Both sides beside one another, batch by batch, with counts of what was compared.
use crate::admitted::admitted;
use crate::listings::ledgers::{Asked, Ledger};
use crate::listings::{asked, facesteps, printer, smaller};
use crate::outputs::{Said, one};
use crate::stack::on_stack;
use judge::formula::Sort;
use judge::random::Random;
use judge::session::fresh;
use std::collections::BTreeMap;

/// The stack that a search may use, and a writer.
const SEARCH_STACK: usize = 2 << 20;
const WRITER_STACK: usize = 1 << 20;

/// Of an expected text so many bytes are shown.
const SHOWN: usize = 400;
/// After so many differences the run stops, and no more are told.
pub const MOST_DIFFERENCES: u64 = 10;

pub const WRITTEN: &str = "formulas";
pub const STEPS: &str = "steps";

#[derive(Default)]
pub struct Comparison {
    /// By part and answer.
    pub counts: BTreeMap<(&'static str, String), u64>,
    /// Steps written, by their kind.
    pub kinds: BTreeMap<usize, u64>,
    /// Searches that the Rust does not end soon.
    pub left_out: u64,
    /// Outputs that were too short.
    pub short: BTreeMap<&'static str, u64>,
    /// The longest listing.
    pub longest: usize,
    pub differences: u64,
}

/// A refusal in words, or what else was answered.
fn words(said: &Said, otherwise: &str) -> String {
    said.as_ref().map_or_else(|q| format!("refused {q}"), |_| otherwise.into())
}

fn escaped(bytes: &[u8]) -> String {
    String::from_utf8_lossy(bytes).escape_debug().to_string()
}

/// The first bytes of an expected text.
fn front(bytes: &[u8]) -> String {
    let more = if bytes.len() > SHOWN { format!(" .. {} bytes", bytes.len()) } else { String::new() };
    escaped(&bytes[..bytes.len().min(SHOWN)]) + &more
}

fn needed(said: &Said) -> usize {
    said.as_ref().map_or(0, |(_, results)| results[0].len())
}

/// What a writer of formulas should write.
fn written(sort: Sort, operand: &[u8]) -> Said {
    let mut text = vec![];
    printer::formula(&admitted(sort, operand)?, &mut text);
    one(Ok(text))
}

/// Both sides anew, with outputs of exact length, shorter and longer: what is printed, and the difference.
fn input_differs(input: &[u8]) -> Option<(Vec<u8>, String)> {
    let printed = fresh(|| facesteps::printed(input))?;
    let (length, said) = (printed.len(), one(Ok(printed.clone())));
    let ask = || asked::facesteps(input, &said, &[length, length - 1, length + 20]);
    on_stack(SEARCH_STACK, "a smaller input", ask).err().map(|difference| (printed, difference))
}

fn operand_differs(sort: Sort, operand: &[u8]) -> bool {
    let said = fresh(|| written(sort, operand));
    let rooms = [needed(&said), needed(&said).saturating_sub(1), needed(&said) + 20];
    on_stack(WRITER_STACK, "a smaller operand", || asked::formula(sort, operand, &said, &rooms)).is_err()
}

impl Comparison {
    pub fn count(&self, part: &str) -> u64 {
        self.counts.iter().filter(|((p, _), _)| *p == part).map(|(_, n)| n).sum()
    }
    fn note(&mut self, part: &'static str, answer: String, said: &Said, rooms: &[usize]) {
        *self.counts.entry((part, answer)).or_default() += 1;
        *self.short.entry(part).or_default() += asked::short(said, rooms);
    }
    /// Inputs of `facesteps`, each through the Rust and then our library.
    pub fn inputs(&mut self, part: &'static str, name: &str, random: &mut Random, inputs: &[Vec<u8>]) {
        let printed: Vec<_> = fresh(|| inputs.iter().map(|input| facesteps::printed(input)).collect());
        let mut asks = vec![];
        for (input, printed) in inputs.iter().zip(printed) {
            let Some(printed) = printed else {
                self.left_out += 1;
                continue;
            };
            let (verdict, rooms) = (facesteps::verdict(&printed), asked::rooms(random, printed.len()));
            self.longest = self.longest.max(printed.len());
            let said = one(Ok(printed));
            self.note(part, verdict, &said, &rooms);
            asks.push((input, said, rooms));
        }
        let ask = || asks.iter().map(|(input, said, rooms)| asked::facesteps(input, said, rooms)).collect::<Vec<_>>();
        for ((input, _, _), result) in asks.iter().zip(on_stack(SEARCH_STACK, name, ask)) {
            if let Err(difference) = result {
                self.tell_input(name, input, &difference);
            }
        }
    }
    /// Counts a difference; whether it is told.
    fn differs(&mut self) -> bool {
        self.differences += 1;
        self.differences <= MOST_DIFFERENCES
    }
    fn tell_input(&mut self, name: &str, input: &[u8], difference: &str) {
        if !self.differs() {
            return;
        }
        println!("\nDIFFERENCE in {name}: {difference}\n  input: {}", escaped(input));
        let small = smaller::smallest(input, smaller::inputs, |input| input_differs(input).is_some());
        if let Some((printed, difference)) = input_differs(&small) {
            let line = on_stack(SEARCH_STACK, name, || asked::first_other_line(&small, &printed));
            println!("a small input that differs: {}\n  {difference}\n  {line}", escaped(&small));
        }
    }
    /// Operands of both writers.
    pub fn operands(&mut self, name: &str, random: &mut Random, operands: &[(Sort, Vec<u8>)]) {
        let saids: Vec<_> = fresh(|| operands.iter().map(|(sort, operand)| written(*sort, operand)).collect());
        let rooms: Vec<_> = saids.iter().map(|said| asked::rooms(random, needed(said))).collect();
        let asks = operands.iter().zip(&saids).zip(&rooms);
        let ask = || asks.map(|(((sort, o), said), rooms)| asked::formula(*sort, o, said, rooms)).collect::<Vec<_>>();
        for (i, result) in on_stack(WRITER_STACK, name, ask).into_iter().enumerate() {
            self.note(WRITTEN, words(&saids[i], "written"), &saids[i], &rooms[i]);
            if let Err(difference) = result {
                self.tell_operand(name, operands[i].0, &operands[i].1, &difference);
            }
        }
    }
    fn tell_operand(&mut self, name: &str, sort: Sort, operand: &[u8], difference: &str) {
        if !self.differs() {
            return;
        }
        println!("\nDIFFERENCE in {name}, {sort:?}: {difference}");
        let candidates = |bytes: &[u8]| fresh(|| smaller::operands(sort, bytes));
        let small = smaller::smallest(operand, candidates, |operand| operand_differs(sort, operand));
        let expected = fresh(|| written(sort, &small));
        let text = expected.map_or_else(|q| format!("refused {q}"), |(_, texts)| front(&texts[0]));
        println!("a small operand that differs: {small:?}\n  expected: {text}");
    }
    /// Steps of ledgers.
    pub fn ledgers(&mut self, random: &mut Random, ledgers: &[Ledger]) {
        for ledger in ledgers {
            let with_rooms = |asked: &Asked| {
                let said = one(asked.line.clone());
                (asked.step, asked::rooms(random, needed(&said)), said)
            };
            let asks: Vec<_> = ledger.asked.iter().map(with_rooms).collect();
            let ask = || asks.iter().map(|(step, rooms, said)| asked::step(ledger, *step, said, rooms)).collect();
            let results: Vec<_> = on_stack(WRITER_STACK, &ledger.name, ask);
            for ((asked, (_, rooms, said)), result) in ledger.asked.iter().zip(&asks).zip(results) {
                self.note_step(asked, said, rooms);
                if let Err(difference) = result {
                    self.tell_step(ledger, asked, &difference);
                }
            }
        }
    }
    fn note_step(&mut self, asked: &Asked, said: &Said, rooms: &[usize]) {
        self.note(STEPS, words(said, if asked.kind.is_none() { "past the end" } else { "written" }), said, rooms);
        if let Some(kind) = asked.kind {
            *self.kinds.entry(kind).or_default() += 1;
        }
    }
    fn tell_step(&mut self, ledger: &Ledger, asked: &Asked, difference: &str) {
        if !self.differs() {
            return;
        }
        println!("\nDIFFERENCE in {}, step {}: {difference}", ledger.name, asked.step);
        let line = asked.line.as_ref().map_or_else(|q| format!("refused {q}"), |line| front(line));
        let front = &ledger.bytes[..ledger.bytes.len().min(SHOWN)];
        println!("  expected: {line}\n  the ledger has {} bytes: {front:?}", ledger.bytes.len());
    }
}

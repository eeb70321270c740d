//! Counts of what was compared.
use crate::expected::{Expected, Item, List, Run};
use crate::foreign;
use crate::plain::steps;
use judge::call::{Answer, CALLS, Call};
use judge::formula::has_dimension;
use judge::ledger::MOST_NODES;
use std::fmt;

/// Answers by their number: 0 for yes, else the refusal.
const ANSWERS: usize = 10;

/// Calls behind one that 7 refused, on the same ledger.
#[derive(Default)]
pub struct AfterSeven {
    pub lists: u64,
    /// Those that added steps, those that did not, and those that 7 refused again.
    pub grew: u64,
    pub stayed: u64,
    pub again: u64,
}

impl AfterSeven {
    fn add(&mut self, run: &Run) {
        let mut calls = run.expected.iter().skip_while(|e| e.answer != Answer::Refused(7)).skip(1).peekable();
        self.lists += u64::from(calls.peek().is_some());
        for expected in calls {
            match &expected.answer {
                Answer::Refused(7) => self.again += 1,
                _ if expected.after > expected.before => self.grew += 1,
                _ => self.stayed += 1,
            }
        }
    }
}

/// Ledgers that no call made.
#[derive(Default)]
pub struct Strange {
    pub ledgers: u64,
    pub twice: u64,
    /// Ledgers with false cover steps, and how many these are.
    pub with_false: u64,
    pub false_covers: u64,
    pub failing: u64,
    pub calls: u64,
    /// Calls asked a second time in a row, and those that only the plain list of steps could judge.
    pub again: u64,
    pub judged: u64,
    pub yes: u64,
    pub not_implied: u64,
    pub grew: u64,
}

impl Strange {
    fn add(&mut self, list: &List, run: &Run) {
        let traits = foreign::traits(&steps::read(&list.start));
        self.ledgers += 1;
        self.twice += u64::from(traits.twice);
        self.with_false += u64::from(traits.false_covers > 0);
        self.false_covers += traits.false_covers as u64;
        self.failing += u64::from(run.desk < 0);
        self.calls += list.items.len() as u64;
        self.again += list.items.windows(2).filter(|two| two[0].call == two[1].call).count() as u64;
        let count = |is: fn(&Expected) -> bool| run.expected.iter().filter(|e| is(e)).count() as u64;
        self.judged += count(|e| e.twice);
        self.yes += count(|e| matches!(e.answer, Answer::Yes(..)));
        self.not_implied += count(|e| e.answer == Answer::Refused(9));
        self.grew += count(|e| e.after > e.before);
    }
}

#[derive(Default)]
pub struct Tally {
    pub lists: u64,
    pub steps: u64,
    pub bytes: u64,
    pub answers: [[u64; ANSWERS]; CALLS.len()],
    /// Refusal 1 by its cause.
    pub short_ledgers: u64,
    pub long_ledgers: u64,
    pub ill_formed: u64,
    /// Damaged ledgers that stayed well formed, and those of them that have a judgement twice.
    pub foreign: u64,
    pub twice: u64,
    /// Calls that both the Rust and the plain list of steps were asked.
    pub both: u64,
    pub after_seven: AfterSeven,
    pub strange: Strange,
    /// Ledgers filled to their last byte, and 7 for one byte and for more.
    pub filled: u64,
    pub seven_by_one: u64,
    pub seven_by_more: u64,
    /// Outputs of exact length, and 6 for one byte and for more.
    pub exact_outputs: u64,
    pub six_by_one: u64,
    pub six_by_more: u64,
    pub old_numbers: u64,
    pub left_steps: u64,
    /// Operands of the most nodes.
    pub largest: u64,
    pub differences: u64,
}

/// The nodes of a formula's bytes; only counted where it is one.
fn nodes(bytes: &[u8]) -> usize {
    let (mut count, mut at) = (0, 0);
    while at < bytes.len() {
        at += 1 + usize::from(has_dimension(bytes[at]));
        count += 1;
    }
    count
}

fn is_largest(operand: &[u8]) -> bool {
    operand.len() >= MOST_NODES && nodes(operand) == MOST_NODES
}

impl Tally {
    pub fn calls(&self) -> u64 {
        self.answers.iter().flatten().sum()
    }
    /// How often a refusal occurred.
    pub fn refused(&self, question: usize) -> u64 {
        self.answers.iter().map(|row| row[question]).sum()
    }
    pub fn add(&mut self, list: &List, run: &Run) {
        self.lists += 1;
        self.steps += run.steps as u64;
        self.both += run.both as u64;
        self.after_seven.add(run);
        if !list.start.is_empty() {
            self.strange.add(list, run);
        }
        for (item, expected) in list.items.iter().zip(&run.expected) {
            self.add_call(list, item, expected);
        }
    }
    fn add_call(&mut self, list: &List, item: &Item, expected: &Expected) {
        let answer = &expected.answer;
        let row = CALLS.iter().position(|s| s.name == item.call.name).unwrap();
        let column = if let Answer::Refused(q) = answer { *q } else { 0 };
        self.answers[row][column] += 1;
        self.largest += item.call.operands.iter().filter(|o| is_largest(o)).count() as u64;
        match answer {
            Answer::Refused(question) => self.add_refusal(list, *question, expected),
            Answer::Yes(step, results) => self.add_yes(list, &item.call, *step, results, expected),
        }
        if expected.damaged.as_ref().is_some_and(|d| d.steps.is_some()) {
            self.foreign += 1;
            self.twice += u64::from(expected.twice);
        }
    }
    fn add_refusal(&mut self, list: &List, question: usize, expected: &Expected) {
        let count = match (question, expected.lacked) {
            (1, _) if expected.damaged.is_some() => &mut self.ill_formed,
            (1, _) if list.length < 4 => &mut self.short_ledgers,
            (1, _) => &mut self.long_ledgers,
            (6, 1) => &mut self.six_by_one,
            (6, _) => &mut self.six_by_more,
            (7, 1) => &mut self.seven_by_one,
            (7, _) => &mut self.seven_by_more,
            _ if expected.after > expected.before => &mut self.left_steps,
            _ => return,
        };
        *count += 1;
    }
    fn add_yes(&mut self, list: &List, call: &Call, step: usize, results: &[Vec<u8>], expected: &Expected) {
        let rooms = results.iter().zip(&call.rooms);
        self.exact_outputs += rooms.filter(|(r, room)| r.len() == **room).count() as u64;
        if expected.damaged.is_none() {
            self.old_numbers += u64::from(step < expected.before);
            self.filled += u64::from(expected.after > expected.before && expected.used == list.length);
        }
    }
}

impl fmt::Display for Strange {
    fn fmt(&self, f: &mut fmt::Formatter<'_>) -> fmt::Result {
        writeln!(
            f,
            "ledgers that no call made: {}, with a judgement twice {}, with false cover steps {} ({} such steps), refused by the desk {}",
            self.ledgers, self.twice, self.with_false, self.false_covers, self.failing
        )?;
        write!(
            f,
            "calls on them: {}, {} yes, {} refused by 9, {} that added steps; asked a second time in a row {}; judged by the plain list of steps alone {}",
            self.calls, self.yes, self.not_implied, self.grew, self.again, self.judged
        )
    }
}

impl fmt::Display for Tally {
    fn fmt(&self, f: &mut fmt::Formatter<'_>) -> fmt::Result {
        writeln!(
            f,
            "{} lists, {} calls, {} steps; {} bytes compared",
            self.lists,
            self.calls(),
            self.steps,
            self.bytes
        )?;
        writeln!(
            f,
            "\n| call | calls | yes | {} |",
            (1..ANSWERS).map(|q| q.to_string()).collect::<Vec<_>>().join(" | ")
        )?;
        writeln!(f, "|{}", "---|".repeat(ANSWERS + 2))?;
        for (signature, row) in CALLS.iter().zip(&self.answers) {
            let cells = row.map(|n| n.to_string()).join(" | ");
            writeln!(f, "| {} | {} | {cells} |", signature.word, row.iter().sum::<u64>())?;
        }
        let all: Vec<_> = (0..ANSWERS).map(|q| self.refused(q).to_string()).collect();
        writeln!(f, "| all | {} | {} |\n", self.calls(), all.join(" | "))?;
        writeln!(
            f,
            "1: ledger too short {}, too long {}, damaged {}; damaged ledgers still well formed: {}, {} of them with a judgement twice",
            self.short_ledgers, self.long_ledgers, self.ill_formed, self.foreign, self.twice
        )?;
        writeln!(
            f,
            "6: one byte short {}, more {}; outputs of exact length {}",
            self.six_by_one, self.six_by_more, self.exact_outputs
        )?;
        writeln!(
            f,
            "7: one byte short {}, more {}; ledgers filled to the last byte {}",
            self.seven_by_one, self.seven_by_more, self.filled
        )?;
        writeln!(
            f,
            "answers with an older step's number {}, failing calls that left steps {}, operands of 511 nodes {}",
            self.old_numbers, self.left_steps, self.largest
        )?;
        let after = &self.after_seven;
        writeln!(
            f,
            "behind a 7 on the same ledger, in {} lists: {} calls that added steps, {} that did not, {} refused by 7 again",
            after.lists, after.grew, after.stayed, after.again
        )?;
        writeln!(f, "{}", self.strange)?;
        writeln!(f, "the plain list of steps agreed with the Rust in {} calls", self.both)?;
        write!(f, "differences: {}", self.differences)
    }
}

//! A list asked of our library, call by call, held against what is expected.
use crate::expected::{Expected, Item, List, Run, whole};
use crate::lent::Lent;
use crate::library;
use crate::stack::on_stack;
use judge::call::{Answer, Call};
use judge::ledger::{self, LONGEST};

/// The stack that the library gets.
pub const STACK: usize = linefeijoa::limits::STACK_BYTES;

/// Where a list differs first, and how.
pub struct Difference {
    pub item: usize,
    pub what: String,
}

/// Both sides' ledgers: the library's, and what it should be.
struct Ledgers {
    ours: Lent,
    expected: Vec<u8>,
    used: usize,
}

impl Ledgers {
    fn new(list: &List) -> Self {
        let expected = whole(&ledger::whole(&list.start), list.length);
        Self { ours: Lent::new(&expected), expected, used: 4 + list.start.len() }
    }
    /// The expected ledger with the records that a call added.
    fn grow(&mut self, records: &[u8], used: usize) {
        if used > self.used {
            self.expected[..4].copy_from_slice(&(used as u32 - 4).to_le_bytes());
            self.expected[self.used..used].copy_from_slice(&records[self.used - 4..used - 4]);
            self.used = used;
        }
    }
}

fn same_number(what: &str, have: i64, want: i64) -> Result<(), String> {
    if have == want {
        return Ok(());
    }
    Err(format!("{what} answered {}, expected {}", library::words(have), library::words(want)))
}

/// An output slice afterwards: the result in front, the rest as before.
fn output_after(before: &[u8], answer: &Answer, i: usize) -> Vec<u8> {
    let mut after = before.to_vec();
    if let Answer::Yes(_, results) = answer {
        after[..results[i].len()].copy_from_slice(&results[i]);
    }
    after
}

/// One call of the library: its answer, every output byte, its operands.
/// The number of bytes compared.
fn ask(ledger: &mut [u8], call: &Call, answer: &Answer, start: usize) -> Result<usize, String> {
    let rooms = call.rooms.iter().enumerate();
    let mut outputs: Vec<_> = rooms.map(|(i, room)| Lent::pattern(*room, start + i)).collect();
    let before: Vec<_> = outputs.iter().map(|o| o.content().to_vec()).collect();
    let given = call.clone();
    let number = library::ask(ledger, &given, &mut outputs);
    same_number("the call", number, library::number(answer))?;
    for (i, output) in outputs.iter().enumerate() {
        output.same(&format!("output {i}"), &output_after(&before[i], answer, i))?;
    }
    if given.operands != call.operands {
        return Err("an operand was written".into());
    }
    Ok(call.rooms.iter().sum())
}

/// A call on the ledger with one byte changed; the ledger is put back.
fn ask_damaged(ledgers: &mut Ledgers, item: &Item, expected: &Expected, start: usize) -> Result<usize, String> {
    let damaged = expected.damaged.as_ref().unwrap();
    ledgers.ours.slice()[damaged.place] = damaged.byte;
    let steps = damaged.steps.map_or(-1, |n| n as i64);
    same_number("lf_well_formed", library::well_formed(ledgers.ours.content()), steps)?;
    let mut bytes = damaged.after.len();
    bytes += ask(ledgers.ours.slice(), &item.call, &expected.answer, start)?;
    ledgers.ours.same("the damaged ledger", &damaged.after)?;
    ledgers.ours.slice().copy_from_slice(&ledgers.expected);
    Ok(bytes)
}

fn ask_plainly(
    ledgers: &mut Ledgers,
    item: &Item,
    expected: &Expected,
    run: &Run,
    start: usize,
) -> Result<usize, String> {
    let bytes = ask(ledgers.ours.slice(), &item.call, &expected.answer, start)?;
    ledgers.grow(&run.records, expected.used);
    ledgers.ours.same("the ledger", &ledgers.expected)?;
    Ok(bytes + ledgers.expected.len())
}

/// After the list: the ledger is well formed, and the desk says what it should.
fn finish(ledgers: &Ledgers, run: &Run) -> Result<usize, String> {
    let bytes = ledgers.ours.content();
    let steps = if (4..=LONGEST).contains(&bytes.len()) { run.steps as i64 } else { -1 };
    same_number("lf_well_formed", library::well_formed(bytes), steps)?;
    same_number("lf_step_desk", library::step_desk(bytes), run.desk)?;
    ledgers.ours.same("the ledger after the desk", &ledgers.expected)?;
    Ok(bytes.len())
}

fn whole_list(list: &List, run: &Run) -> Result<u64, Difference> {
    let mut ledgers = Ledgers::new(list);
    let mut bytes = 0;
    for (i, (item, expected)) in list.items.iter().zip(&run.expected).enumerate() {
        let asked = match expected.damaged {
            Some(_) => ask_damaged(&mut ledgers, item, expected, i),
            None => ask_plainly(&mut ledgers, item, expected, run, i),
        };
        bytes += asked.map_err(|what| Difference { item: i, what })?;
    }
    let last = list.items.len().saturating_sub(1);
    bytes += finish(&ledgers, run).map_err(|what| Difference { item: last, what })?;
    Ok(bytes as u64)
}

/// Asks a list of our library in a thread of [`STACK`]; its name says
/// which list it was if the stack runs out. The number of bytes compared.
pub fn replay(name: &str, list: &List, run: &Run) -> Result<u64, Difference> {
    on_stack(STACK, name, || whole_list(list, run))
}

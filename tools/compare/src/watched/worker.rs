//! The process that makes the calls: one order a line on its standard input, one line of answer for each.
//!
//!     ledger LENGTH RECORDS    the ledger, these records in front
//!     ask CALL                 a call in the sample's form; number, nanoseconds, steps, used bytes
//!     depth CALL               the same on a stack that is watched; the bytes of stack touched stand behind
//!     checks                   the bytes of stack that well_formed and the desk touch
//!     counterexample ROUNDS ROOM D A B    no ledger; number, the least nanoseconds, whether all around the output and the
//!                              operands stayed, the output, which was filled beforehand
//!     refuted D A B            the bytes of stack that a question for a counterexample touches
//!     back                     the ledger as it was before the last call
//!     used                     the used part of the ledger
use crate::expected::whole;
use crate::lent::Lent;
use crate::library;
use crate::stack::on_stack;
use crate::watched::depth::Stack;
use judge::call::Call;
use judge::ledger;
use judge::text::{self, HEX};
use linefeijoa::bytes;
use linefeijoa::limits::STACK_BYTES;
use std::hint::black_box;
use std::io::{BufRead, Write, stdin, stdout};
use std::os::unix::process::parent_id;
use std::time::{Duration, Instant};

/// The argument by which a program is told to be this process.
pub const ORDER: &str = "--worker";
/// The stack of calls whose depth is not asked for.
const STACK: usize = 16 << 20;
/// More than the most dimensions.
const LONGEST_ASSIGNMENT: usize = 256;
/// No round of a call that is timed several times starts after this time.
const PATIENCE: Duration = Duration::from_millis(20);

#[derive(Default)]
struct Worker {
    ledger: Vec<u8>,
    /// The used part before the last call.
    before: Vec<u8>,
    stack: Option<Stack>,
}

impl Worker {
    fn used(&self) -> usize {
        4 + u32::from_le_bytes(self.ledger[..4].try_into().unwrap()) as usize
    }
    fn back(&mut self) {
        let (used, before) = (self.used(), self.before.len());
        self.ledger[..before].copy_from_slice(&self.before);
        self.ledger[before..used.max(before)].fill(0);
    }
    fn keep(&mut self) {
        self.before = self.ledger[..self.used()].to_vec();
    }
    fn ask(&mut self, call: &Call, watch_depth: bool) -> String {
        self.keep();
        let mut outputs: Vec<_> = call.rooms.iter().map(|room| Lent::zeros(*room)).collect();
        let (mut answer, mut time) = (0, 0);
        let mut work = || {
            let start = Instant::now();
            answer = library::ask(&mut self.ledger, call, &mut outputs);
            time = start.elapsed().as_nanos();
        };
        let depth = if watch_depth {
            self.stack.get_or_insert_default().touched(work)
        } else {
            work();
            0
        };
        format!("{answer} {time} {} {} {depth}", library::well_formed(&self.ledger), self.used())
    }
    /// The least time of some rounds, in a thread of the stack that callers are told to have.
    fn counterexample(order: &str) -> String {
        let words: Vec<_> = order.split(' ').collect();
        let [rounds, room, d, a, b] = words[..] else { panic!("no question: {order}") };
        let number = |word: &str| word.parse::<u64>().expect("a number");
        let [a, b] = [a, b].map(|word| text::unhex(word).expect("a face"));
        let (x, y) = (Lent::new(&a), Lent::new(&b));
        let (rounds, room, d) = (number(rounds), number(room) as usize, number(d));
        on_stack(STACK_BYTES, "a counterexample", || {
            let (begin, mut least) = (Instant::now(), Duration::MAX);
            let mut round = 1;
            loop {
                let mut out = Lent::pattern(room, room);
                let start = Instant::now();
                let answer = bytes::counterexample(d, x.content(), y.content(), out.slice());
                least = least.min(start.elapsed());
                if round >= rounds || begin.elapsed() > PATIENCE {
                    let kept = out.guarded() && x.same("a", &a).is_ok() && y.same("b", &b).is_ok();
                    return format!("{answer} {} {} {}", least.as_nanos(), u8::from(kept), HEX(out.content()));
                }
                round += 1;
            }
        })
    }
    fn refuted(&mut self, order: &str) -> String {
        let words: Vec<_> = order.split(' ').collect();
        let [d, a, b] = words[..] else { panic!("no question: {order}") };
        let [a, b] = [a, b].map(|word| text::unhex(word).expect("a face"));
        let (d, mut out) = (d.parse().expect("a number"), [0; LONGEST_ASSIGNMENT]);
        let stack = self.stack.get_or_insert_default();
        let depth = stack.touched(|| {
            black_box(bytes::counterexample(d, &a, &b, &mut out));
        });
        depth.to_string()
    }
    fn checks(&mut self) -> String {
        let stack = self.stack.get_or_insert_default();
        let [formed, desk] = [library::well_formed, library::step_desk].map(|check| {
            stack.touched(|| {
                black_box(check(&self.ledger));
            })
        });
        format!("{formed} {desk}")
    }
    /// The line that answers an order.
    fn obey(&mut self, order: &str) -> String {
        let (word, rest) = order.split_once(' ').unwrap_or((order, ""));
        let call = || text::call(rest).expect("a call");
        match word {
            "ledger" => {
                let (length, records) = rest.split_once(' ').expect("a length and records");
                let records = text::unhex(records).expect("records");
                self.ledger = whole(&ledger::whole(&records), length.parse().expect("a length"));
                self.keep();
                "good".into()
            }
            "ask" => self.ask(&call(), false),
            "depth" => self.ask(&call(), true),
            "checks" => self.checks(),
            "counterexample" => Self::counterexample(rest),
            "refuted" => self.refuted(rest),
            "back" => {
                self.back();
                "good".into()
            }
            "used" => HEX(&self.ledger[..self.used()]),
            _ => panic!("no order: {order}"),
        }
    }
}

fn obey_all() {
    let mut worker = Worker::default();
    for line in stdin().lock().lines() {
        let mut out = stdout().lock();
        writeln!(out, "{}", worker.obey(&line.expect("a line"))).and_then(|()| out.flush()).expect("an answer");
    }
}

/// Ends this process once the one that gives the orders is gone, so that no call runs on by itself.
fn end_with_parent() {
    let parent = parent_id();
    std::thread::spawn(move || {
        while parent_id() == parent {
            std::thread::sleep(Duration::from_secs(1));
        }
        std::process::exit(1);
    });
}

/// Whether this process was told to make calls; it has done so then, until its input ended.
pub fn served() -> bool {
    let told = std::env::args().nth(1).as_deref() == Some(ORDER);
    if told {
        end_with_parent();
        on_stack(STACK, "calls", obey_all);
    }
    told
}

//! The side that gives orders and does not wait for ever.
use crate::watched::worker::ORDER;
use judge::call::Call;
use judge::text::{HEX, call_line, unhex};
use std::io::{BufRead, BufReader, Write};
use std::process::{Child, ChildStdin, Command, Stdio};
use std::sync::mpsc::{Receiver, RecvTimeoutError, channel};
use std::time::Duration;

/// What a call did.
#[derive(Clone, Copy, Debug)]
pub struct Asked {
    pub number: i64,
    pub time: Duration,
    pub steps: usize,
    pub used: usize,
    /// The bytes of stack that were touched, where that was asked for.
    pub depth: usize,
}

/// What a question for a counterexample did.
#[derive(Clone, Debug)]
pub struct Refuted {
    pub number: i64,
    /// The least of the rounds.
    pub time: Duration,
    /// Whether the operands and all around them and the output stayed.
    pub kept: bool,
    /// The output, which was `Lent::pattern(room, room)` before.
    pub out: Vec<u8>,
}

/// Why there is no answer.
#[derive(Clone, Copy, PartialEq, Debug)]
pub enum Failure {
    /// It took longer than the limit.
    Late,
    /// The process ended.
    Died,
}

struct Running {
    child: Child,
    orders: ChildStdin,
    answers: Receiver<String>,
}

impl Running {
    fn start() -> Self {
        let own = std::env::current_exe().expect("this program");
        let mut command = Command::new(own);
        let mut child =
            command.arg(ORDER).stdin(Stdio::piped()).stdout(Stdio::piped()).spawn().expect("a process for the calls");
        let orders = child.stdin.take().expect("its input");
        let lines = BufReader::new(child.stdout.take().expect("its output")).lines();
        let (to, answers) = channel();
        std::thread::spawn(move || {
            for line in lines.map_while(Result::ok) {
                if to.send(line).is_err() {
                    break;
                }
            }
        });
        Self { child, orders, answers }
    }
}

impl Drop for Running {
    fn drop(&mut self) {
        // It may have ended by itself.
        let _gone = self.child.kill();
        let _status = self.child.wait();
    }
}

/// A process that makes calls, on a ledger that it is given. After a failure a new one is started, with the ledger as given.
pub struct Watch {
    limit: Duration,
    running: Option<Running>,
    ledger: String,
}

impl Watch {
    pub fn new(limit: Duration) -> Self {
        Self { limit, running: None, ledger: "ledger 4 -".into() }
    }
    fn tell(&mut self, order: &str) -> Result<String, Failure> {
        if self.running.is_none() {
            self.running = Some(Running::start());
            let ledger = self.ledger.clone();
            self.tell(&ledger)?;
        }
        let running = self.running.as_mut().expect("a process");
        let answer = match writeln!(running.orders, "{order}") {
            Ok(()) => running.answers.recv_timeout(self.limit).map_err(|error| match error {
                RecvTimeoutError::Timeout => Failure::Late,
                RecvTimeoutError::Disconnected => Failure::Died,
            }),
            Err(_) => Err(Failure::Died),
        };
        if answer.is_err() {
            self.running = None;
        }
        answer
    }
    /// A ledger of this length with these records.
    pub fn ledger(&mut self, length: usize, records: &[u8]) -> Result<(), Failure> {
        self.ledger = format!("ledger {length} {}", HEX(records));
        let order = self.ledger.clone();
        self.tell(&order).map(drop)
    }
    /// An order that is answered by numbers.
    fn numbers<const N: usize>(&mut self, order: &str) -> Result<[i64; N], Failure> {
        let line = self.tell(order)?;
        let numbers: Vec<_> = line.split(' ').map(|w| w.parse().expect("a number")).collect();
        Ok(numbers.try_into().unwrap_or_else(|_| panic!("an answer: {line}")))
    }
    fn call(&mut self, word: &str, call: &Call) -> Result<Asked, Failure> {
        let [number, nanos, steps, used, depth] = self.numbers(&format!("{word} {}", call_line(call, HEX)))?;
        let (steps, used, depth) = (steps as usize, used as usize, depth as usize);
        Ok(Asked { number, time: Duration::from_nanos(nanos as u64), steps, used, depth })
    }
    /// One call on the ledger as it is.
    pub fn ask(&mut self, call: &Call) -> Result<Asked, Failure> {
        self.call("ask", call)
    }
    /// The same on a stack that is watched.
    pub fn depth(&mut self, call: &Call) -> Result<Asked, Failure> {
        self.call("depth", call)
    }
    /// One question for a counterexample, in so many rounds, with an output of so many bytes. The limit is for all rounds,
    /// but a second one starts only while they are short.
    pub fn counterexample(
        &mut self,
        rounds: usize,
        room: usize,
        d: usize,
        a: &[u8],
        b: &[u8],
    ) -> Result<Refuted, Failure> {
        let line = self.tell(&format!("counterexample {rounds} {room} {d} {} {}", HEX(a), HEX(b)))?;
        let words: Vec<_> = line.split(' ').collect();
        let [number, nanos, kept, out] = words[..] else { panic!("an answer: {line}") };
        let time = Duration::from_nanos(nanos.parse().expect("a number"));
        let out = unhex(out).expect("bytes");
        Ok(Refuted { number: number.parse().expect("a number"), time, kept: kept == "1", out })
    }
    /// The bytes of stack that a question for a counterexample touches.
    pub fn refuted(&mut self, d: usize, a: &[u8], b: &[u8]) -> Result<usize, Failure> {
        let [depth] = self.numbers(&format!("refuted {d} {} {}", HEX(a), HEX(b)))?;
        Ok(depth as usize)
    }
    /// The bytes of stack that well_formed and the desk touch on the ledger as it is.
    pub fn checks(&mut self) -> Result<[usize; 2], Failure> {
        Ok(self.numbers("checks")?.map(|n: i64| n as usize))
    }
    /// The ledger as it was before the last call.
    pub fn back(&mut self) -> Result<(), Failure> {
        self.tell("back").map(drop)
    }
    /// The used part of the ledger.
    pub fn used(&mut self) -> Result<Vec<u8>, Failure> {
        self.tell("used").map(|hex| unhex(&hex).expect("bytes"))
    }
}

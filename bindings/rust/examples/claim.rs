//! Asks a claim, prints its listing and the answer, where it does not hold, and what the step desk says of the ledger.
//!
//!     cargo run --example claim 'entails (s z) (at0 z) ft'
//!
//! Exit status: 0 where the claim holds, 1 where it is refused, 2 where it could not be asked.
use linefeijoa::limits::MAX_LEDGER_BYTES;
use linefeijoa::{Claim, Ledger, Refusal};
use std::process::ExitCode;

/// From a small ledger on: a call reads all of it.
fn ask(claim: &Claim) -> (Ledger, Result<u32, Refusal>) {
    let mut ledger = Ledger::new(4_096).expect("a length that is allowed");
    loop {
        let answer = ledger.ask(claim);
        let length = ledger.as_bytes().len();
        if answer != Err(Refusal::FullLedger) || length == MAX_LEDGER_BYTES {
            return (ledger, answer.map(u32::from));
        }
        ledger.extend_to(4 * length).expect("a length that is allowed");
    }
}

fn main() -> ExitCode {
    let words: Vec<_> = std::env::args().collect();
    let [_, text] = &words[..] else {
        eprintln!("usage: claim 'entails D FACE FACE'");
        return ExitCode::from(2);
    };
    let claim: Claim = match text.parse() {
        Ok(claim) => claim,
        Err(refusal) => {
            println!("refused {}: {refusal}", refusal.number());
            return ExitCode::FAILURE;
        }
    };
    let (ledger, answer) = ask(&claim);
    print!("{}", ledger.listing());
    match answer {
        Ok(step) => println!("yes {step}"),
        Err(refusal) => println!("refused {}: {refusal}", refusal.number()),
    }
    if let (Err(Refusal::NotImplied), Ok(at)) = (answer, claim.counterexample()) {
        println!("it does not hold at {at}");
    }
    match ledger.desk() {
        Ok(steps) => println!("passed {steps}"),
        Err(refusal) => println!("refused {}: {refusal}", refusal.number()),
    }
    if answer.is_ok() { ExitCode::SUCCESS } else { ExitCode::FAILURE }
}

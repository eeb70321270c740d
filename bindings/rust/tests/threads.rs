//! Ledgers and threads.
use linefeijoa::{Assignment, Claim, Face, Interval, Ledger, Made, Record, Refusal, Rule, Step, Value, bytes, limits};
use std::thread;

/// All of the types may be sent to another thread and looked at from several.
#[test]
fn send_and_sync() {
    fn both<T: Send + Sync + 'static>() {}
    both::<Ledger>();
    both::<Face>();
    both::<Interval>();
    both::<Claim>();
    both::<Made<Face>>();
    both::<Record<'static>>();
    both::<Refusal>();
    both::<(Rule, Step)>();
    both::<(Assignment, Value)>();
}

/// Calls with results, refusals and a search, on a ledger of their own.
fn work(seed: u8) -> (Vec<String>, Vec<u8>) {
    let mut ledger = Ledger::new(65_536).unwrap();
    let mut said = vec![];
    for n in 0..20 {
        let (i, j) = ((seed + n) % 5, (seed + 3 * n) % 7);
        let a = Face::at0(i).unwrap().and(&Face::at1(j).unwrap().or(&Face::at0(j).unwrap()).unwrap()).unwrap();
        let b = a.normal().unwrap();
        said.push(format!("{:?}", ledger.entails(6, &a, &b)));
        said.push(format!("{:?}", ledger.forall(&a, i.into())));
        said.push(format!("{:?}", ledger.substitute_face(&b, j.into(), &Interval::dim(n).unwrap())));
        said.push(format!("{:?}", ledger.boundary(&Interval::dim(i).unwrap().neg().unwrap())));
        said.push(ledger.get(Step::new(n.into())).unwrap().to_string());
    }
    said.push(ledger.listing());
    said.push(format!("{:?}", ledger.desk()));
    (said, ledger.into_bytes())
}

#[test]
fn the_same_in_threads() {
    let alone: Vec<_> = (0..8).map(work).collect();
    let threads: Vec<_> = (0..8).map(|seed| thread::spawn(move || work(seed))).collect();
    for (thread, alone) in threads.into_iter().zip(alone) {
        assert!(thread.join().unwrap() == alone);
    }
}

/// One ledger looked at from several threads, then sent to another, which calls.
#[test]
fn shared_then_sent() {
    let mut ledger = Ledger::new(2_048).unwrap();
    ledger.ask(&"entails (s z) (at0 z) ft".parse().unwrap()).unwrap();
    thread::scope(|scope| {
        for _ in 0..4 {
            scope.spawn(|| assert_eq!((ledger.desk(), ledger.listing().lines().count()), (Ok(6), 6)));
        }
    });
    let ledger = thread::spawn(move || {
        ledger.face(2, &Face::ff()).unwrap();
        ledger
    });
    assert_eq!(ledger.join().unwrap().desk(), Ok(7));
}

/// The search that takes most stack (docs/BENCHMARK.md), in a thread of the size that is asked for.
#[test]
fn the_deepest_search_fits_the_stack() {
    let row = |dims: &mut dyn Iterator<Item = u8>| [vec![4; 255], dims.flat_map(|n| [2, n]).collect()].concat();
    let a = row(&mut (0..=255).map(|n| n % 254));
    let b = row(&mut (0..=255).rev().map(|n| n % 254));
    let deepest = thread::Builder::new().stack_size(limits::STACK_BYTES);
    let answer = deepest.spawn(move || Ledger::new(1_048_576).unwrap().entails(255, &a, &b)).unwrap();
    assert_eq!(answer.join().unwrap(), Err(Refusal::FullLedger));
}

/// The same of a counterexample: 256 literals, each of which has to hold, to as many that none does.
#[test]
fn the_longest_counterexample_fits_the_stack() {
    let row = |node: u8, literal: u8| [vec![node; 255], (0..=255).flat_map(|n| [literal, n % 255]).collect()].concat();
    let (a, b) = (row(4, 2), row(5, 3));
    let longest = thread::Builder::new().stack_size(limits::STACK_BYTES);
    let asked = longest.spawn(move || {
        let mut out = [9; 256];
        (bytes::counterexample(255, &a, &b, &mut out), out)
    });
    let (answer, out) = asked.unwrap().join().unwrap();
    assert_eq!((answer, &out[..255], out[255]), (255, &[0; 255][..], 9));
}

//! Counterexamples: known ones, all of small faces beside every assignment, and those of the stored claims beside entails.
mod common;

use common::lists;
use linefeijoa::{Claim, Face, Ledger, Refusal, Value, bytes};

fn counterexample(text: &str) -> Result<String, Refusal> {
    Claim::from_text(text).unwrap().counterexample().map(|at| at.to_string())
}

/// Whether the face at the front holds at an assignment, and what follows it.
fn holds<'a>(face: &'a [u8], at: &[u8]) -> (bool, &'a [u8]) {
    match *face {
        [constant @ (0 | 1), ref rest @ ..] => (constant == 1, rest),
        [end @ (2 | 3), n, ref rest @ ..] => (at[usize::from(n)] == end - 2, rest),
        [kind, ref rest @ ..] => {
            let (left, rest) = holds(rest, at);
            let (right, rest) = holds(rest, at);
            (if kind == 4 { left && right } else { left || right }, rest)
        }
        [] => panic!("no face"),
    }
}

fn refutes(claim: &Claim, at: &[u8]) -> bool {
    holds(claim.a.as_bytes(), at).0 && !holds(claim.b.as_bytes(), at).0
}

/// How many dimensions are zero or one.
fn determined(at: &[u8]) -> usize {
    at.iter().filter(|byte| **byte < 2).count()
}

#[test]
fn known() {
    assert_eq!(counterexample("entails (s z) ft (for (at0 z) (at1 z))"), Ok("_".into()));
    assert_eq!(counterexample("entails z ft ff"), Ok(String::new()));
    assert_eq!(counterexample("entails (s (s z)) (for (at1 z) (at0 (s z))) (at1 z)"), Ok("_0".into()));
    // As few dimensions either way: 0_ comes before _0.
    assert_eq!(counterexample("entails (s (s z)) (for (at0 (s z)) (at0 z)) ff"), Ok("0_".into()));
    assert_eq!(counterexample("entails (s (s z)) (for (at1 z) (at0 z)) (at0 z)"), Ok("1_".into()));
    assert_eq!(counterexample("entails (s z) (fand (at0 z) (at1 z)) ff"), Err(Refusal::Implied));
    assert_eq!(counterexample("entails z ff (at0 z)"), Err(Refusal::NotBelow));
}

#[test]
fn looked_at() {
    let at = Claim::from_text("entails (s (s (s z))) (fand (at0 z) (at1 (s z))) ff").unwrap().counterexample().unwrap();
    assert_eq!(at.values().collect::<Vec<_>>(), [Value::Zero, Value::One, Value::Undetermined]);
    assert_eq!((at.get(2), at.get(3)), (Some(Value::Undetermined), None));
    assert_eq!((at.as_bytes(), at.as_ref()), (&[0, 1, 2][..], &[0, 1, 2][..]));
    assert_eq!((format!("{at:?}"), format!("{at:>4}|")), ("Assignment(01_)".into(), " 01_|".into()));
    assert_eq!((Vec::from(at.clone()), at.into_bytes()), (vec![0, 1, 2], vec![0, 1, 2]));
}

/// Every pair of faces up to three nodes over two dimensions, beside all nine assignments.
#[test]
fn small_faces() {
    let leaves: Vec<_> = [vec![0], vec![1]].into_iter().chain((0..4).map(|i| vec![2 + i % 2, i / 2])).collect();
    let pairs = leaves.iter().flat_map(|x| leaves.iter().map(move |y| [&x[..], y].concat()));
    let pairs = pairs.flat_map(|parts| [4, 5].map(|kind| [&[kind][..], &parts].concat()));
    let faces: Vec<_> = leaves.iter().cloned().chain(pairs).map(|f| Face::from_bytes(f).unwrap()).collect();
    let all: Vec<_> = (0..9).map(|i| [i / 3, i % 3]).collect();
    let mut found = 0;
    for a in &faces {
        for b in &faces {
            let claim = Claim { d: 2, a: a.clone(), b: b.clone() };
            let least = all.iter().filter(|at| refutes(&claim, &at[..])).min_by_key(|at| (determined(&at[..]), **at));
            let said = claim.counterexample();
            found += usize::from(said.is_ok());
            match least {
                Some(at) => assert_eq!(said.unwrap().as_bytes(), at, "{claim}"),
                None => assert_eq!(said, Err(Refusal::Implied), "{claim}"),
            }
        }
    }
    assert_eq!(faces.len(), 78);
    println!("{} pairs, {found} with a counterexample", faces.len() * faces.len());
}

/// Every stored call of entails: a counterexample exactly where it is refused by 9 on a ledger that is long enough.
#[test]
fn beside_entails() {
    let (mut found, mut implied) = (0, 0);
    for (call, _) in lists("lists.txt").into_iter().chain(lists("small.txt")).flat_map(|list| list.calls) {
        if call.name != "entails" {
            continue;
        }
        let (d, a, b) = (call.numbers[0], &call.operands[0][..], &call.operands[1][..]);
        let mut out = [9; 255];
        let said = bytes::length_of(bytes::counterexample(d, a, b, &mut out));
        match (Ledger::new(1_048_576).unwrap().entails(d, a, b), said) {
            (Ok(_), said) => {
                assert_eq!(said, Err(Refusal::Implied));
                implied += 1;
            }
            (Err(Refusal::NotImplied), said) => {
                let length = said.unwrap();
                assert_eq!(length as u64, d);
                let claim = Claim { d: d as u8, a: a.try_into().unwrap(), b: b.try_into().unwrap() };
                assert!(refutes(&claim, &out[..length]));
                assert_eq!(claim.counterexample().unwrap().as_bytes(), &out[..length]);
                found += 1;
            }
            (Err(Refusal::FullLedger), _) => {}
            (Err(refusal), said) => assert_eq!(said, Err(refusal)),
        }
    }
    println!("{found} counterexamples, {implied} implications that hold");
    assert!(found > 50 && implied > 50);
}

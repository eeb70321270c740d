//! Steps looked at in three ways: in one pass, by number, and as printed lines.
mod common;

use common::{Left, lists};
use linefeijoa::{Claim, Ledger, Record, Rule, Step, bytes, facesteps};
use std::collections::BTreeSet;

/// The ledgers that the sample stores whole.
fn ledgers() -> Vec<Ledger> {
    let stored = lists("lists.txt").into_iter().chain(lists("small.txt")).filter_map(|list| match list.left {
        Left::Is(bytes) if list.ledger >= 4 => Some(Ledger::from_bytes(bytes).unwrap()),
        _ => None,
    });
    stored.collect()
}

#[test]
fn one_pass_and_look_ups_agree() {
    let (mut kinds, mut steps, mut claims) = (BTreeSet::new(), 0, 0);
    for ledger in ledgers() {
        let records: Vec<Record> = ledger.steps().collect();
        assert_eq!(records.len(), ledger.count() as usize);
        assert_eq!(ledger.steps().len(), records.len());
        for (i, record) in records.iter().enumerate() {
            let (step, number) = (Step::new(i as u32), i as u64);
            assert_eq!(ledger.get(step).as_ref(), Some(record));
            assert_eq!(record.step(), step);
            assert_eq!(i64::from(record.rule().kind()), bytes::kind(ledger.as_bytes(), number));
            let part = bytes::part_of(bytes::operands(ledger.as_bytes(), number));
            assert_eq!(record.operands(), &ledger.as_bytes()[part]);
            let mut references = 0;
            for (j, reference) in record.references().enumerate() {
                assert_eq!(i64::from(reference.number()) + 1, bytes::reference(ledger.as_bytes(), number, j as u64));
                assert!(reference < step);
                references = j + 1;
            }
            assert_eq!(bytes::reference(ledger.as_bytes(), number, references as u64), 0);
            // What this crate puts together of a step is what the library prints.
            assert_eq!(ledger.line(step), Some(format!("{record}\n")));
            kinds.insert(record.rule());
            if let Some(claim) = record.claim() {
                assert_eq!(record.operands(), [&[claim.d], claim.a.as_bytes(), claim.b.as_bytes()].concat());
                assert_eq!(record.judgement(), format!("({claim})"));
                claims += 1;
            }
        }
        let past = Step::new(ledger.count());
        assert!(ledger.get(past).is_none() && ledger.line(past).is_none());
        assert!(ledger.get(u32::MAX).is_none());
        assert_eq!((&ledger).into_iter().count(), records.len());
        steps += records.len();
    }
    println!("{steps} steps, {claims} claims among them");
    assert_eq!(kinds.len(), 75);
    assert!(claims > 100);
}

#[test]
fn rules() {
    let names: BTreeSet<_> = Rule::all().map(Rule::name).collect();
    assert_eq!(names.len(), 75);
    for (i, rule) in Rule::all().enumerate() {
        assert_eq!(usize::from(rule.kind()), i + 1);
        assert_eq!(Rule::of_kind(rule.kind().into()), Some(rule));
        assert_eq!(Rule::named(rule.name()), Some(rule));
        assert_eq!(rule.to_string(), rule.name());
    }
    assert_eq!((Rule::of_kind(0), Rule::of_kind(76), Rule::of_kind(257), Rule::named("")), (None, None, None, None));
    assert_eq!(Rule::ENTAILS_CHECKED.name(), "entails.checked");
}

#[test]
fn listings_are_those_of_facesteps() {
    for text in [
        "entails (s z) (at0 z) ft",
        "entails (s (s z)) (fand (at0 z) (for (at0 (s z)) (at1 (s z)))) (for (fand (at0 z) (at0 (s z))) (fand (at0 z) (at1 (s z))))",
        "entails (s z) ft (for (at0 z) (at1 z))",
        "entails z ff (at0 z)",
    ] {
        let mut ledger = Ledger::new(65_536).unwrap();
        let said = match ledger.ask(&text.parse().unwrap()) {
            Ok(step) => format!("yes {step}"),
            Err(refusal) => format!("refused {}", refusal.number()),
        };
        assert_eq!(facesteps(text), format!("{}{said}\n", ledger.listing()));
    }
}

#[test]
fn repeats() {
    let claim: Claim = "entails (s z) (at0 z) ft".parse().unwrap();
    let (mut first, mut second) = (Ledger::new(200).unwrap(), Ledger::new(4_096).unwrap());
    assert!(!first.repeats(&second) && !first.repeats(&first));
    first.ask(&claim).unwrap();
    second.ask(&"entails z ff ff".parse().unwrap()).unwrap();
    assert!(!first.repeats(&second) && first.repeats(&first));
    second.ask(&claim).unwrap();
    assert!(first.repeats(&second) && second.repeats(&first));
    second.face(2, &[1]).unwrap();
    assert!(!first.repeats(&second));
}

#[test]
fn bytes_in_and_out() {
    let mut ledger = Ledger::new(200).unwrap();
    ledger.face(1, &[1]).unwrap();
    assert_eq!(ledger.used_bytes().len(), 12);
    assert_eq!(format!("{ledger:?}"), "Ledger { bytes: 200, used: 12, steps: 1 }");
    let short = Ledger::from_bytes(ledger.used_bytes()).unwrap();
    assert_eq!(short.listing(), ledger.listing());
    let mut again = short.clone();
    again.extend_to(200).unwrap();
    assert_eq!(again, ledger);
    again.extend_to(100).unwrap();
    assert_eq!(again.as_bytes().len(), 200);
    assert_eq!(Ledger::try_from(Vec::from(again)), Ok(ledger.clone()));
    assert_eq!(Ledger::try_from(ledger.as_ref()).map(Ledger::into_bytes), Ok(ledger.into_bytes()));
}

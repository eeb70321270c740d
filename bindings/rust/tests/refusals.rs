//! Every refusal, met through the safe interface, and its words.
use linefeijoa::limits::{MAX_LEDGER_BYTES, MIN_LEDGER_BYTES};
use linefeijoa::{Claim, End, Face, Interval, Ledger, Refusal, Step, bytes};

fn ledger() -> Ledger {
    Ledger::new(4_096).unwrap()
}

/// A chain of 257 literals, which has 513 nodes.
fn wide() -> Vec<u8> {
    [vec![4; 256], [2, 0].repeat(257)].concat()
}

#[test]
fn refusal_1() {
    for length in [0, 3, MAX_LEDGER_BYTES + 1, usize::MAX] {
        assert_eq!(Ledger::new(length), Err(Refusal::IllFormedLedger));
    }
    assert!(Ledger::new(MIN_LEDGER_BYTES).is_ok() && Ledger::new(MAX_LEDGER_BYTES).is_ok());
    assert_eq!(Ledger::from_bytes([1, 0, 0, 0]), Err(Refusal::IllFormedLedger));
    assert_eq!(Ledger::from_bytes([0, 0, 0, 0, 1]), Err(Refusal::IllFormedLedger));
    assert_eq!(ledger().extend_to(MAX_LEDGER_BYTES + 1), Err(Refusal::IllFormedLedger));
    assert_eq!(bytes::step_of(bytes::face(&mut [], 0, &[1])), Err(Refusal::IllFormedLedger));
    assert_eq!(bytes::count_of(bytes::repeats(&[0; 4], &[1; 4])), Err(Refusal::IllFormedLedger));
}

#[test]
fn refusal_2() {
    let no = Err(Refusal::NotAFormula);
    for operand in [&[][..], &[2], &[16], &[1, 1], &[4, 1], &[6]] {
        assert_eq!(ledger().face(1, operand), no);
        assert_eq!(ledger().entails(1, operand, &Face::ft()), no);
        assert_eq!(ledger().entails(1, &Face::ft(), operand), no);
        assert_eq!(ledger().forall(operand, 0).map(|m| m.step), no);
        assert_eq!(ledger().shift_face(operand, 0).map(|m| m.step), no);
        assert_eq!(ledger().substitute_face(operand, 0, &Interval::i0()).map(|m| m.step), no);
        assert_eq!(Face::from_bytes(operand), Err(Refusal::NotAFormula));
    }
    for operand in [&[][..], &[18], &[1], &[16, 16], &[20, 16], &[22]] {
        assert_eq!(ledger().interval(1, operand), no);
        assert_eq!(ledger().boundary(operand).map(|b| b.step), no);
        assert_eq!(ledger().endpoint(1, &Face::ft(), operand, End::One), no);
        assert_eq!(ledger().shift_interval(operand, 0).map(|m| m.step), no);
        assert_eq!(ledger().substitute_interval(operand, 0, &Interval::i0()).map(|m| m.step), no);
        assert_eq!(ledger().substitute_interval(&Interval::i0(), 0, operand).map(|m| m.step), no);
        assert_eq!(Interval::from_bytes(operand), Err(Refusal::NotAFormula));
    }
}

#[test]
fn refusal_3() {
    assert_eq!(ledger().face(1, &wide()), Err(Refusal::TooManyNodes));
    assert_eq!(Face::from_bytes(wide()), Err(Refusal::TooManyNodes));
    assert_eq!("(neg ".repeat(512).parse::<Interval>(), Err(Refusal::TooManyNodes));
    let half = Face::from_bytes([vec![4; 127], vec![1; 128]].concat()).unwrap();
    let full = half.and(&half).unwrap();
    assert_eq!(full.as_bytes().len(), 511);
    assert_eq!(full.or(&Face::ff()), Err(Refusal::TooManyNodes));
}

#[test]
fn refusal_4() {
    assert_eq!(Face::at0(255), Err(Refusal::LargeDimension));
    assert_eq!(Face::at1(255), Err(Refusal::LargeDimension));
    assert_eq!(Interval::dim(255), Err(Refusal::LargeDimension));
    assert_eq!(ledger().face(256, &Face::ft()), Err(Refusal::LargeDimension));
    assert_eq!(ledger().face(u64::MAX, &Face::ft()), Err(Refusal::LargeDimension));
    assert_eq!(ledger().forall(&Face::ft(), 255), Err(Refusal::LargeDimension));
    assert_eq!(format!("entails {}", "(s ".repeat(256)).parse::<Claim>(), Err(Refusal::LargeDimension));
}

#[test]
fn refusal_5() {
    let last = Interval::dim(254).unwrap();
    assert_eq!(ledger().shift_interval(&last, 0), Err(Refusal::LargeResult));
    let two = last.meet(&last).unwrap();
    let half = Interval::from_bytes([vec![21; 150], vec![16; 151]].concat()).unwrap();
    assert_eq!(ledger().substitute_interval(&two, 254, &half), Err(Refusal::LargeResult));
    // 17 times 16 clauses before they are pruned.
    let row = |n: u8| [vec![5; n as usize - 1], (0..n).flat_map(|i| [2, i]).collect()].concat();
    let face = Face::from_bytes([&[4][..], &row(17), &row(16)].concat()).unwrap();
    assert_eq!(face.normal(), Err(Refusal::LargeResult));
}

#[test]
fn refusal_6() {
    let mut out = [9; 3];
    assert_eq!(bytes::length_of(bytes::write_face(&[2, 0], &mut out)), Err(Refusal::ShortOutput));
    assert_eq!(bytes::length_of(bytes::rule_name(1, &mut out)), Err(Refusal::ShortOutput));
    assert_eq!(bytes::length_of(bytes::facesteps(b"", &mut out)), Err(Refusal::ShortOutput));
    let mut ledger = [0; 100];
    assert_eq!(bytes::made_of(bytes::forall(&mut ledger, &[1], 0, &mut [])), Err(Refusal::ShortOutput));
    assert_eq!((out, ledger), ([9; 3], [0; 100]));
}

#[test]
fn refusal_7() {
    let claim: Claim = "entails (s z) (at0 z) ft".parse().unwrap();
    let mut ledger = Ledger::new(78).unwrap();
    let before = ledger.clone();
    assert_eq!(ledger.ask(&claim), Err(Refusal::FullLedger));
    assert_eq!(ledger, before);
    ledger.extend_to(79).unwrap();
    assert_eq!(ledger.ask(&claim), Ok(Step::new(5)));
    // Full to the last byte: what is there is answered still.
    assert_eq!(ledger.ask(&claim), Ok(Step::new(5)));
    assert_eq!(ledger.face(1, &Face::ff()), Err(Refusal::FullLedger));
}

#[test]
fn refusals_8_and_9() {
    let mut ledger = ledger();
    assert_eq!(ledger.face(1, &Face::at0(1).unwrap()), Err(Refusal::NotBelow));
    assert_eq!(ledger.entails(1, &Face::ft(), &Face::at0(0).unwrap()), Err(Refusal::NotImplied));
    assert_eq!(ledger.endpoint(1, &Face::ft(), &Interval::dim(0).unwrap(), End::Zero), Err(Refusal::NotImplied));
    // They leave steps, which follow.
    assert!(ledger.count() > 0);
    assert_eq!(ledger.desk(), Ok(ledger.count()));
}

#[test]
fn refusal_10() {
    let mut ledger = ledger();
    ledger.ask(&"entails (s z) (at0 z) ft".parse().unwrap()).unwrap();
    let good = ledger.used_bytes().to_vec();
    // The reference of step 2, then that of step 1 to its own number, which makes it no ledger.
    let mut forged = good.clone();
    forged[31] = 0;
    let refused = Ledger::from_bytes(forged).unwrap().desk().unwrap_err();
    assert_eq!(refused, Refusal::DoesNotFollow(Step::new(2)));
    assert_eq!(refused.to_string(), "a step does not follow by its rule: step 2");
    let mut ill = good;
    ill[18] = 1;
    assert_eq!(Ledger::from_bytes(ill), Err(Refusal::IllFormedLedger));
}

#[test]
fn refusal_11() {
    for text in ["", "(", "ft ft", "((ft))", "(at0 1)", "at0", "\tft"] {
        assert_eq!(text.parse::<Face>(), Err(Refusal::NotAccepted), "{text}");
        assert_eq!(text.parse::<Interval>(), Err(Refusal::NotAccepted), "{text}");
        assert_eq!(text.parse::<Claim>(), Err(Refusal::NotAccepted), "{text}");
    }
    assert_eq!(linefeijoa::facesteps("entails z ft"), "refused 11\n");
}

#[test]
fn refusal_12() {
    let claim: Claim = "entails (s z) (at0 z) ft".parse().unwrap();
    assert_eq!(claim.counterexample(), Err(Refusal::Implied));
    assert_eq!(ledger().ask(&claim), Ok(Step::new(5)));
    let mut out = [9; 3];
    assert_eq!(bytes::length_of(bytes::counterexample(1, &[2, 0], &[1], &mut out)), Err(Refusal::Implied));
    assert_eq!(out, [9; 3]);
}

/// The other refusals of a counterexample, each asked of all that it concerns before the next.
#[test]
fn refusals_of_a_counterexample() {
    let (at0, high) = (&[2, 0][..], &[2, 255][..]);
    let ask = |d, a: &[u8], b: &[u8], room: usize| {
        let mut out = vec![9; room];
        let refusal = bytes::refusal_of(bytes::counterexample(d, a, b, &mut out)).map(Refusal::number);
        assert!(refusal.is_none() || out.iter().all(|byte| *byte == 9));
        refusal
    };
    assert_eq!(ask(256, &wide(), &[4, 1], 0), Some(2));
    assert_eq!(ask(256, high, &wide(), 0), Some(3));
    assert_eq!(ask(2, high, at0, 0), Some(4));
    assert_eq!(ask(256, at0, at0, 0), Some(4));
    assert_eq!(ask(u64::MAX, at0, at0, 300), Some(4));
    assert_eq!(ask(1, &[2, 1], at0, 0), Some(6));
    assert_eq!(ask(255, at0, at0, 254), Some(6));
    assert_eq!(ask(1, at0, &[3, 1], 1), Some(8));
    assert_eq!(ask(0, &[0], at0, 0), Some(8));
    assert_eq!(ask(1, at0, at0, 1), Some(12));
    assert_eq!(ask(0, &[0], &[0], 0), Some(12));
    assert_eq!(ask(0, &[1], &[0], 0), None);
}

#[test]
fn refusal_13() {
    let (face, interval) = (Face::at1(33).unwrap(), Interval::dim(33).unwrap());
    assert_eq!((face.fence(), interval.fence()), (Err(Refusal::BeyondProducer), Err(Refusal::BeyondProducer)));
    assert_eq!(bytes::count_of(bytes::fence_face(face.as_bytes())), Err(Refusal::BeyondProducer));
    // The calls take them.
    assert!(ledger().face(34, &face).is_ok() && ledger().interval(34, &interval).is_ok());
}

/// Numbers, meanings and what to do are different for each, and every number is there.
#[test]
fn words() {
    let all = (1..=13).map(|n| bytes::refusal_of(-n).unwrap()).collect::<Vec<_>>();
    for (i, refusal) in all.iter().enumerate() {
        assert_eq!(usize::from(refusal.number()), i + 1);
        assert!(refusal.to_string().starts_with(refusal.meaning()));
        let error: &dyn std::error::Error = refusal;
        assert!(error.source().is_none() && !refusal.remedy().is_empty());
        assert!(all[..i].iter().all(|r| r.meaning() != refusal.meaning() && r.remedy() != refusal.remedy()));
    }
    assert_eq!(bytes::refusal_of(0), None);
    assert_eq!(bytes::refusal_of(-(10 + 16 * 131_071)), Some(Refusal::DoesNotFollow(Step::new(131_071))));
}

#[test]
fn numbers_that_nothing_answers() {
    for number in [-14, -15, -16, -17, -27, -29, i64::MIN] {
        assert!(std::panic::catch_unwind(|| bytes::refusal_of(number)).is_err(), "{number}");
    }
}

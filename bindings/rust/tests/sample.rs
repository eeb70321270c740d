//! The published Rust's lists of calls through every call of this crate, over slices and by types.
mod common;

use common::{Answer, Call, List, lists};
use linefeijoa::{AsFace, AsInterval, End, Face, Interval, Ledger, Made, Refusal, Step, bytes};
use std::collections::BTreeMap;

fn all() -> Vec<List> {
    [lists("lists.txt"), lists("small.txt")].into_iter().flatten().collect()
}

/// An output slice, filled beforehand.
fn filled(room: u64) -> Vec<u8> {
    (0..room).map(|i| (7 * i + 31 * room + 0x5a) as u8).collect()
}

/// Asks over slices: the number, and the outputs.
fn ask_bytes(ledger: &mut [u8], call: &Call) -> (i64, Vec<Vec<u8>>) {
    let x = call.numbers[0];
    let a = &call.operands[0][..];
    let b = || &call.operands[1][..];
    let mut out = match call.name.as_str() {
        "boundary" => vec![filled(x), filled(call.numbers[1])],
        "face" | "interval" | "endpoint" | "entails" => vec![],
        _ => vec![filled(call.numbers[1])],
    };
    let answer = match call.name.as_str() {
        "face" => bytes::face(ledger, x, a),
        "interval" => bytes::interval(ledger, x, a),
        "boundary" => {
            let (zero, one) = out.split_at_mut(1);
            bytes::boundary(ledger, a, &mut zero[0], &mut one[0])
        }
        "endpoint" => bytes::endpoint(ledger, x, a, b(), call.numbers[1]),
        "forall" => bytes::forall(ledger, a, x, &mut out[0]),
        "face-shift" => bytes::shift_face(ledger, a, x, &mut out[0]),
        "interval-shift" => bytes::shift_interval(ledger, a, x, &mut out[0]),
        "face-substitute" => bytes::substitute_face(ledger, a, x, b(), &mut out[0]),
        "interval-substitute" => bytes::substitute_interval(ledger, a, x, b(), &mut out[0]),
        "entails" => bytes::entails(ledger, x, a, b()),
        name => panic!("no call is named {name}"),
    };
    (answer, out)
}

/// Every answer, every output byte, every ledger byte, and the desk.
#[test]
fn over_slices() {
    let mut met = BTreeMap::new();
    for list in all() {
        let mut ledger = vec![0; list.ledger];
        for (call, said) in &list.calls {
            let (answer, out) = ask_bytes(&mut ledger, call);
            *met.entry((call.name.clone(), bytes::refusal_of(answer).map(Refusal::number))).or_insert(0) += 1;
            let rooms: Vec<_> = out.iter().map(|out| filled(out.len() as u64)).collect();
            match said {
                Ok((step, results)) => {
                    let length = results.first().map_or(0, Vec::len);
                    assert_eq!(bytes::made_of(answer), Ok((Step::new(*step), length)));
                    for ((out, result), before) in out.iter().zip(results).zip(rooms) {
                        assert_eq!(out[..length], result[..]);
                        assert_eq!(out[length..], before[length..]);
                    }
                }
                Err(number) => {
                    assert_eq!(bytes::refusal_of(answer).map(Refusal::number), Some(*number));
                    assert_eq!(out, rooms);
                }
            }
        }
        list.left.check(&ledger);
        assert_eq!(bytes::count_of(bytes::step_desk(&ledger)), bytes::count_of(bytes::well_formed(&ledger)));
    }
    let calls: usize = met.values().sum();
    println!("{calls} calls over slices: {met:?}");
    assert_eq!(met.keys().map(|(name, _)| name).collect::<std::collections::BTreeSet<_>>().len(), 10);
    for number in 1..=9 {
        assert!(met.keys().any(|(_, refused)| *refused == Some(number)), "refusal {number} did not occur");
    }
}

/// The step and the results as bytes.
type Asked = Result<(Step, Vec<Vec<u8>>), Refusal>;

/// The same for operands as types or as bytes.
fn ask(
    ledger: &mut Ledger,
    call: &Call,
    (face, second_face): (&(impl AsFace + ?Sized), &(impl AsFace + ?Sized)),
    (interval, second): (&(impl AsInterval + ?Sized), &(impl AsInterval + ?Sized)),
) -> Asked {
    let x = call.numbers[0];
    let of_face = |made: Made<Face>| (made.step, vec![made.result.into_bytes()]);
    let of_interval = |made: Made<Interval>| (made.step, vec![made.result.into_bytes()]);
    let alone = |step| (step, vec![]);
    match call.name.as_str() {
        "face" => ledger.face(x, face).map(alone),
        "interval" => ledger.interval(x, interval).map(alone),
        "boundary" => ledger.boundary(interval).map(|b| (b.step, vec![b.zero.into_bytes(), b.one.into_bytes()])),
        "endpoint" => {
            let end = if call.numbers[1] == 0 { End::Zero } else { End::One };
            ledger.endpoint(x, face, second, end).map(alone)
        }
        "forall" => ledger.forall(face, x).map(of_face),
        "face-shift" => ledger.shift_face(face, x).map(of_face),
        "interval-shift" => ledger.shift_interval(interval, x).map(of_interval),
        "face-substitute" => ledger.substitute_face(face, x, second).map(of_face),
        "interval-substitute" => ledger.substitute_interval(interval, x, second).map(of_interval),
        "entails" => ledger.entails(x, face, second_face).map(alone),
        name => panic!("no call is named {name}"),
    }
}

/// Asks by types where the operands are formulas, else with the bytes.
fn ask_typed(ledger: &mut Ledger, call: &Call) -> (bool, Asked) {
    let a = &call.operands[0][..];
    let b = call.operands.get(1).map_or(&[][..], |b| &b[..]);
    let faces = (Face::from_bytes(a), Face::from_bytes(b));
    let intervals = (Interval::from_bytes(a), Interval::from_bytes(b));
    let (ft, i0) = (Face::ft(), Interval::i0());
    let first_is_face =
        !matches!(call.name.as_str(), "interval" | "boundary" | "interval-shift" | "interval-substitute");
    let second_is_face = call.name == "entails";
    let typed = if first_is_face { faces.0.is_ok() } else { intervals.0.is_ok() }
        && (call.operands.len() < 2 || if second_is_face { faces.1.is_ok() } else { intervals.1.is_ok() });
    let answer = if typed {
        let (face, second_face) = (faces.0.as_ref().unwrap_or(&ft), faces.1.as_ref().unwrap_or(&ft));
        let (interval, second) = (intervals.0.as_ref().unwrap_or(&i0), intervals.1.as_ref().unwrap_or(&i0));
        ask(ledger, call, (face, second_face), (interval, second))
    } else {
        ask(ledger, call, (a, b), (a, b))
    };
    (typed, answer)
}

#[test]
fn by_types() {
    let (mut typed, mut plain) = (0, 0);
    for list in all() {
        let Ok(mut ledger) = Ledger::new(list.ledger) else {
            assert!(list.calls.iter().all(|(_, said): &(_, Answer)| *said == Err(1)));
            continue;
        };
        // The outputs here are always long enough.
        for (call, said) in list.calls.iter().filter(|(_, said)| *said != Err(6)) {
            let (by_types, answer) = ask_typed(&mut ledger, call);
            let answer = answer.map(|(step, results)| (step.number(), results)).map_err(Refusal::number);
            assert_eq!(answer, *said, "{}", call.name);
            *(if by_types { &mut typed } else { &mut plain }) += 1;
        }
        list.left.check(ledger.as_bytes());
        assert_eq!(ledger.desk(), Ok(ledger.count()));
    }
    println!("{typed} calls by types, {plain} with bytes that are no formula");
    assert!(typed > 2_000 && plain > 50);
}

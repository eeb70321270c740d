//! Document 01's listing and marked examples, through the types.
use linefeijoa::{Claim, End, Face, Interval, Ledger, Refusal, Step, facesteps};

const LISTING: &str = "\
0 lt.z [] (lt z (s z))
1 interval.dim [0] (interval (s z) (dim z))
2 face.0 [1] (face (s z) (at0 z))
3 face.ft [] (face (s z) ft)
4 cover.top [] (cover (fc (at0 z) fnil) ft)
5 entails.checked [2,3,4] (entails (s z) (at0 z) ft)
";

fn face(text: &str) -> Face {
    text.parse().unwrap()
}

fn interval(text: &str) -> Interval {
    text.parse().unwrap()
}

fn ledger() -> Ledger {
    Ledger::new(2_048).unwrap()
}

fn entails(d: u64, a: &str, b: &str) -> Result<u32, u8> {
    let mut ledger = ledger();
    let answer = ledger.entails(d, &face(a), &face(b));
    assert_eq!(ledger.desk(), Ok(ledger.count()));
    answer.map(Step::number).map_err(Refusal::number)
}

#[test]
fn listing() {
    let claim: Claim = "entails (s z) (at0 z) ft".parse().unwrap();
    let mut ledger = ledger();
    assert_eq!(ledger.ask(&claim), Ok(Step::new(5)));
    assert_eq!(ledger.listing(), LISTING);
    assert_eq!(ledger.desk(), Ok(6));
    assert_eq!(facesteps("entails (s z) (at0 z) ft\n"), format!("{LISTING}yes 5\n"));
    assert_eq!(ledger.used_bytes().len(), 79);
}

#[test]
fn entailments() {
    let split = "(for (fand (at0 z) (at0 (s z))) (fand (at0 z) (at1 (s z))))";
    assert_eq!(entails(2, "(fand (at0 z) (for (at0 (s z)) (at1 (s z))))", split), Ok(31));
    assert_eq!(entails(1, "(fand (at0 z) (at1 z))", "ff"), Ok(12));
    assert_eq!(entails(1, "ft", "(for (at0 z) (at1 z))"), Err(9));
    assert_eq!(entails(0, "ff", "(at0 z)"), Err(8));
    assert_eq!(entails(0, "ff", "ff"), Ok(3));
}

#[test]
fn normal_forms() {
    assert_eq!(face("(fand (at0 z) (at1 z))").normal(), Ok(Face::ff()));
    assert_eq!(face("(for (at0 z) (at1 z))").normal(), Ok(face("(for (at0 z) (at1 z))")));
    assert_eq!(face("(for (at1 z) (fand (at1 z) (at0 (s z))))").normal(), Ok(face("(at1 z)")));
}

#[test]
fn results() {
    let forall = ledger().forall(&face("(for (at0 z) (fand (at1 (s z)) (at0 (s (s z)))))"), 1).unwrap();
    assert_eq!(forall.result, face("(for (at0 z) (fand ff (at0 (s z))))"));
    let boundary = ledger().boundary(&interval("(meet (dim z) (neg (dim z)))")).unwrap();
    assert_eq!(boundary.zero, face("(for (at0 z) (at1 z))"));
    assert_eq!(boundary.one, face("(fand (at1 z) (at0 z))"));
    assert_eq!(ledger().shift_face(&Face::at0(1).unwrap(), 1).unwrap().result, Face::at0(2).unwrap());
    assert_eq!(ledger().shift_face(&Face::at0(0).unwrap(), 1).unwrap().result, Face::at0(0).unwrap());
    assert_eq!(ledger().shift_face(&Face::at0(254).unwrap(), 0), Err(Refusal::LargeResult));
    assert_eq!(ledger().shift_interval(&interval("(dim (s z))"), 1).unwrap().result, interval("(dim (s (s z)))"));
    let r = interval("(join (dim (s (s (s z)))) i0)");
    assert_eq!(ledger().substitute_face(&face("(at1 z)"), 0, &r).unwrap().result, face("(for (at1 (s (s (s z)))) ff)"));
    assert_eq!(ledger().substitute_interval(&interval("(neg (dim z))"), 0, &r).unwrap().result, r.neg().unwrap());
}

#[test]
fn endpoints() {
    let mut ledger = ledger();
    assert_eq!(
        ledger.endpoint(1, &face("(at0 z)"), &interval("(meet (dim z) (neg (dim z)))"), End::Zero),
        Ok(Step::new(14))
    );
    assert_eq!(ledger.endpoint(1, &face("(at1 z)"), &interval("(dim z)"), End::One), Ok(Step::new(18)));
    assert_eq!(ledger.endpoint(1, &Face::ft(), &interval("(dim z)"), End::One), Err(Refusal::NotImplied));
}

#[test]
fn an_interval_of_511_nodes_passes() {
    let mut ledger = ledger();
    ledger.extend_to(1_048_576).unwrap();
    let mut r = Interval::dim(0).unwrap();
    for _ in 0..510 {
        r = r.neg().unwrap();
    }
    assert_eq!(ledger.interval(1, &r), Ok(Step::new(511)));
    assert_eq!(r.neg(), Err(Refusal::TooManyNodes));
    assert_eq!(ledger.interval(1, &[&[19], r.as_bytes()].concat()), Err(Refusal::TooManyNodes));
}

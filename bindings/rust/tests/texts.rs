//! Formulas and claims as texts, and the longest of them.
use linefeijoa::limits::{MAX_FORMULA_BYTES, MAX_LINE_BYTES, MAX_TEXT_BYTES};
use linefeijoa::{Claim, Face, Interval, Ledger, facesteps};

/// 256 literals of dimension 254 under 255 nodes over two: 511 nodes.
fn longest(node: u8, literal: u8) -> Vec<u8> {
    [vec![node; 255], [literal, 254].repeat(256)].concat()
}

#[test]
fn spellings() {
    for (text, bytes) in
        [("ff", &[0][..]), ("(ff)", &[0]), ("(at0(z))", &[2, 0]), (" (for\n(at1 (s (s z)))  ft ) ", &[5, 3, 2, 1])]
    {
        let face: Face = text.parse().unwrap();
        assert_eq!(face.as_bytes(), bytes);
        assert_eq!(Face::from_text(face.to_string()), Ok(face));
    }
    let interval: Interval = "(meet i0 (join (neg (dim (s z))) i1))".parse().unwrap();
    assert_eq!(interval.as_bytes(), [20, 16, 21, 19, 18, 1, 17]);
    assert_eq!(interval.to_string(), "(meet i0 (join (neg (dim (s z))) i1))");
    assert_eq!(format!("{interval:?}"), "Interval((meet i0 (join (neg (dim (s z))) i1)))");
    assert_eq!(format!("{:>4}|{:<4}", Face::ff(), Face::ft()), "  ff|ft  ");
    assert_eq!(Face::try_from(&[5, 0, 1][..]).map(Vec::from), Ok(vec![5, 0, 1]));
    assert_eq!(Interval::try_from(vec![16]).map(Interval::into_bytes), Ok(vec![16]));
    assert_eq!((Face::ft().as_ref(), Interval::i1().as_ref()), (&[1][..], &[17][..]));
    let claim = Claim::from_text(b" entails\n(z) ft ff").unwrap();
    assert_eq!(claim, Claim { d: 0, a: Face::ft(), b: Face::ff() });
    assert_eq!((claim.to_string(), format!("{claim:>16}")), ("entails z ft ff".into(), " entails z ft ff".into()));
}

/// Buffers grow to what is needed.
#[test]
fn the_longest() {
    let face = Face::from_bytes(longest(4, 3)).unwrap();
    let text = face.to_string();
    assert_eq!((face.as_bytes().len(), text.len()), (767, 263_928));
    assert!(face.as_bytes().len() <= MAX_FORMULA_BYTES && text.len() <= MAX_TEXT_BYTES);
    assert_eq!(text.parse(), Ok(face.clone()));
    let interval = Interval::from_bytes(longest(21, 18)).unwrap();
    assert_eq!(interval.to_string().parse(), Ok(interval));

    let claim = Claim { d: 255, a: face.clone(), b: face };
    assert_eq!(claim.to_string().parse(), Ok(claim.clone()));
    let mut ledger = Ledger::new(1_048_576).unwrap();
    let step = ledger.ask(&claim).unwrap();
    let record = ledger.get(step).unwrap();
    assert_eq!(record.claim(), Some(claim));
    let line = ledger.line(step).unwrap();
    assert_eq!(line, format!("{record}\n"));
    assert!(line.len() > 2 * 263_928 && line.len() <= MAX_LINE_BYTES);
}

/// A listing of more than four buffers of 65,536 bytes.
#[test]
fn a_long_listing() {
    let row = |dims: &mut dyn Iterator<Item = usize>| {
        dims.map(|n| format!("(at0 {})", unary(n))).reduce(|a, b| format!("(fand {a} {b})")).unwrap()
    };
    let text = format!("entails {} {} {}", unary(24), row(&mut (0..24)), row(&mut (0..24).rev()));
    let printed = facesteps(&text);
    assert!(printed.len() > 4 * 65_536, "{}", printed.len());
    let mut ledger = Ledger::new(65_536).unwrap();
    let step = ledger.ask(&text.parse().unwrap()).unwrap();
    assert_eq!(printed, format!("{}yes {step}\n", ledger.listing()));
}

fn unary(n: usize) -> String {
    format!("{}z{}", "(s ".repeat(n), ")".repeat(n))
}

// Times lf_well_formed on ledgers of 1,048,576 bytes beside a comparison of as many bytes.
// usage: well_formed SAMPLE ROUNDS, where SAMPLE is a file of the oracle with lines `ledger-is HEX`.
use linefeijoa::bytes::well_formed;
use std::hint::black_box;
use std::time::Instant;

const LEN: usize = 1_048_576;

fn number(bytes: &[u8]) -> usize {
    bytes.iter().rev().fold(0, |n, b| 256 * n + *b as usize)
}

fn unhex(text: &str) -> Vec<u8> {
    (0..text.len())
        .step_by(2)
        .map(|i| u8::from_str_radix(&text[i..i + 2], 16).unwrap())
        .collect()
}

// The records of the sample's ledgers. Repeated, they stay well formed: references only fall behind.
fn records(sample: &str) -> Vec<Vec<u8>> {
    let mut found = Vec::new();
    for line in sample.lines().filter_map(|l| l.strip_prefix("ledger-is ")) {
        let bytes = unhex(line);
        let mut rest = &bytes[4..];
        while !rest.is_empty() {
            let (record, more) = rest.split_at(4 + number(&rest[..4]));
            found.push(record.to_vec());
            rest = more;
        }
    }
    found
}

// A ledger with these records again and again, and how many there are.
fn full(records: &[Vec<u8>]) -> (Vec<u8>, i64) {
    let mut ledger = vec![0; 4];
    let mut n = 0;
    for record in records.iter().cycle() {
        if LEN < ledger.len() + record.len() {
            break;
        }
        ledger.extend(record);
        n += 1;
    }
    let length = (ledger.len() - 4) as u32;
    ledger[..4].copy_from_slice(&length.to_le_bytes());
    ledger.resize(LEN, 0);
    (ledger, n)
}

fn micros(work: impl Fn()) -> f64 {
    let start = Instant::now();
    work();
    start.elapsed().as_nanos() as f64 / 1000.0
}

// The median and the least: the least is the time of a machine that does nothing else.
fn summary(mut times: Vec<f64>) -> (f64, f64) {
    times.sort_by(f64::total_cmp);
    (times[times.len() / 2], times[0])
}

// Both sides in turn, so that they meet the same load of the machine.
fn compare(label: &str, ledger: &[u8], want: i64, rounds: usize) {
    let copy = ledger.to_vec();
    let (mut ours, mut plain) = (Vec::new(), Vec::new());
    for _ in 0..rounds {
        ours.push(micros(|| {
            assert_eq!(well_formed(black_box(ledger)), want, "{label}")
        }));
        plain.push(micros(|| {
            assert!(black_box(ledger) == black_box(&copy[..]))
        }));
    }
    let (ours, plain) = (summary(ours), summary(plain));
    println!(
        "{label}, {want} steps: median {:.1} µs, least {:.1} µs",
        ours.0, ours.1
    );
    println!(
        "  comparison: median {:.1} µs, least {:.1} µs",
        plain.0, plain.1
    );
    println!(
        "  ratio: of medians {:.1}, of the least {:.1}",
        ours.0 / plain.0,
        ours.1 / plain.1
    );
}

fn main() {
    let words: Vec<String> = std::env::args().collect();
    let sample = std::fs::read_to_string(&words[1]).expect("a sample");
    let rounds = words[2].parse().expect("a number of rounds");
    let (ledger, n) = full(&records(&sample));
    // Written, since untouched zeros are one page of memory mapped many times.
    let mut zeros = black_box(vec![1; LEN]);
    zeros.fill(0);
    compare("all zeros", &zeros, 0, rounds);
    compare("full", &ledger, n, rounds);
    assert_eq!(well_formed(&[0; LEN + 1]), -1, "refusal 1");
}

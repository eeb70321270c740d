// Times lf_step_desk and lf_well_formed on full ledgers whose steps all follow, beside a comparison of as many bytes.
// usage: desk ROUNDS SAMPLE.., where SAMPLE is a file of the oracle with lines `ledger-is HEX`.
use linefeijoa::bytes::{step_desk, well_formed};
use std::hint::black_box;
use std::time::Instant;

const LEN: usize = 1_048_576;

// How many references the steps of the kinds 1 to 75 have.
const REFERENCES: &[u8; 75] =
    b"010100112200112201010112232113000122330001101122001112200101122001122002222";

fn number(bytes: &[u8]) -> usize {
    bytes.iter().rev().fold(0, |n, b| 256 * n + *b as usize)
}

fn unhex(text: &str) -> Vec<u8> {
    (0..text.len())
        .step_by(2)
        .map(|i| u8::from_str_radix(&text[i..i + 2], 16).unwrap())
        .collect()
}

// The records of a ledger, with its references raised by as many steps as stand before it.
fn raised(ledger: &[u8], before: usize) -> Vec<Vec<u8>> {
    let mut found = Vec::new();
    let mut rest = &ledger[4..4 + number(&ledger[..4])];
    while !rest.is_empty() {
        let (record, more) = rest.split_at(4 + number(&rest[..4]));
        let mut record = record.to_vec();
        let kind = number(&record[4..6]);
        for j in 0..(REFERENCES[kind - 1] - b'0') as usize {
            let at = 6 + 4 * j;
            let step = (number(&record[at..at + 4]) + before) as u32;
            record[at..at + 4].copy_from_slice(&step.to_le_bytes());
        }
        found.push(record);
        rest = more;
    }
    found
}

// The sample's ledgers one behind another, again and again, and how many steps there are.
fn full(sample: &str) -> (Vec<u8>, i64) {
    let ledgers: Vec<Vec<u8>> = sample
        .lines()
        .filter_map(|l| l.strip_prefix("ledger-is "))
        .map(unhex)
        .collect();
    let (mut bytes, mut n) = (vec![0; 4], 0);
    for ledger in ledgers.iter().cycle() {
        let records = raised(ledger, n);
        if LEN < bytes.len() + records.concat().len() {
            break;
        }
        bytes.extend(records.concat());
        n += records.len();
    }
    let length = (bytes.len() - 4) as u32;
    bytes[..4].copy_from_slice(&length.to_le_bytes());
    bytes.resize(LEN, 0);
    (bytes, n as i64)
}

fn micros(work: impl Fn()) -> f64 {
    let start = Instant::now();
    work();
    start.elapsed().as_nanos() as f64 / 1000.0
}

fn summary(mut times: Vec<f64>) -> (f64, f64) {
    times.sort_by(f64::total_cmp);
    (times[times.len() / 2], times[0])
}

fn main() {
    let words: Vec<String> = std::env::args().collect();
    let rounds: usize = words[1].parse().expect("a number of rounds");
    for name in &words[2..] {
        let (ledger, n) = full(&std::fs::read_to_string(name).expect("a sample"));
        let copy = ledger.clone();
        let (mut desk, mut check, mut plain) = (Vec::new(), Vec::new(), Vec::new());
        for _ in 0..rounds {
            let l = black_box(&ledger);
            desk.push(micros(|| assert_eq!(step_desk(l), n, "{name}")));
            check.push(micros(|| assert_eq!(well_formed(l), n, "{name}")));
            plain.push(micros(|| assert!(l[..] == black_box(&copy)[..])));
        }
        println!("{name}, {n} steps");
        for (what, times) in [
            ("desk", desk),
            ("check alone", check),
            ("comparison", plain),
        ] {
            let (median, least) = summary(times);
            println!("  {what}: median {median:.1} µs, least {least:.1} µs");
        }
    }
}

//! The stored lists of calls with the published Rust's answers, in the form of tools/oracle/README.md.
#![allow(dead_code)]
use std::fs;
use std::path::Path;

/// A call: its name, its numbers (d, k, rooms, the end) and its operands.
pub struct Call {
    pub name: String,
    pub numbers: Vec<u64>,
    pub operands: Vec<Vec<u8>>,
}

/// Yes with the step and the results, or the refusal.
pub type Answer = Result<(u32, Vec<Vec<u8>>), u8>;

/// What the ledger is afterwards: its first bytes, or how many and their sums.
pub enum Left {
    Is(Vec<u8>),
    Sum(usize, u32, u32),
}

pub struct List {
    pub ledger: usize,
    pub calls: Vec<(Call, Answer)>,
    pub left: Left,
}

fn unhex(word: &str) -> Vec<u8> {
    let pairs = word.as_bytes().chunks_exact(2);
    pairs.map(|pair| u8::from_str_radix(std::str::from_utf8(pair).unwrap(), 16).unwrap()).collect()
}

fn call(words: &[&str]) -> Call {
    let numbers = match words[0] {
        "face" | "interval" | "entails" => 1,
        _ => 2,
    };
    let (name, words) = (words[0].to_owned(), &words[1..]);
    Call {
        name,
        numbers: words[..numbers].iter().map(|word| word.parse().unwrap()).collect(),
        operands: words[numbers..].iter().map(|word| unhex(word.trim_matches('-'))).collect(),
    }
}

fn answer(words: &[&str]) -> Answer {
    match words {
        ["yes", step, results @ ..] => Ok((step.parse().unwrap(), results.iter().map(|r| unhex(r)).collect())),
        ["refused", number] => Err(number.parse().unwrap()),
        _ => panic!("no answer: {words:?}"),
    }
}

/// The lists of a file of tools/oracle/sample.
pub fn lists(file: &str) -> Vec<List> {
    let path = Path::new(env!("CARGO_MANIFEST_DIR")).join("../../tools/oracle/sample").join(file);
    let text = fs::read_to_string(path).expect("the sample");
    let lines = text.lines().filter(|line| !line.starts_with('#'));
    let mut words = lines.map(|line| line.split(' ').collect::<Vec<_>>());
    let mut out = vec![];
    while words.next().is_some() {
        let ledger = words.next().expect("a ledger")[1].parse().unwrap();
        let mut calls = vec![];
        let left = loop {
            let line = words.next().expect("a call or what is left");
            match line[..] {
                ["ledger-is", bytes] => break Left::Is(unhex(bytes)),
                ["ledger-sum", n, a, b] => break Left::Sum(n.parse().unwrap(), a.parse().unwrap(), b.parse().unwrap()),
                _ => calls.push((call(&line), answer(&words.next().expect("an answer")))),
            }
        };
        out.push(List { ledger, calls, left });
    }
    out
}

impl Left {
    /// Fails where a ledger is something else.
    pub fn check(&self, ledger: &[u8]) {
        let used = match self {
            Self::Is(bytes) => {
                // Four bytes are told of a shorter ledger too.
                let n = bytes.len().min(ledger.len());
                assert_eq!(ledger[..n], bytes[..n]);
                n
            }
            Self::Sum(n, a, b) => {
                let sums = ledger[..*n].iter().fold((1, 0), |(a, b), byte| {
                    let a = (a + u32::from(*byte)) % 65_521;
                    (a, (b + a) % 65_521)
                });
                assert_eq!(sums, (*a, *b));
                *n
            }
        };
        assert!(ledger[used..].iter().all(|byte| *byte == 0));
    }
}

//! The times of reading and writing faces of 511 nodes and of listings, ours beside plain Rust for the same, in one run.
//! usage: text_times [ROUNDS]
use compare::listings::made::longest_listing;
use compare::listings::{facesteps, printer};
use compare::texts::model;
use judge::formula::{FF, FT, HEADS, Sort, has_dimension, part_count, read_whole};
use judge::session::{fresh, rust_face};
use linefeijoa::bytes;
use published::cubical::engine::face_frontend::FaceProducer;
use std::hint::black_box;
use std::time::Instant;

/// A reader as one would write it in Rust: over the bytes, with slices for words.
struct Plain<'a> {
    text: &'a [u8],
    at: usize,
    nodes: usize,
    out: Vec<u8>,
}

enum Token<'a> {
    Open,
    Close,
    Word(&'a [u8]),
}

impl<'a> Plain<'a> {
    fn token(&mut self) -> Result<Token<'a>, u8> {
        while matches!(self.text.get(self.at), Some(b' ' | b'\n')) {
            self.at += 1;
        }
        let start = self.at;
        match self.text.get(start) {
            None => return Err(11),
            Some(b'(') => {
                self.at += 1;
                return Ok(Token::Open);
            }
            Some(b')') => {
                self.at += 1;
                return Ok(Token::Close);
            }
            Some(_) => {}
        }
        while self.text.get(self.at).is_some_and(|b| !matches!(b, b' ' | b'\n' | b'(' | b')')) {
            self.at += 1;
        }
        Ok(Token::Word(&self.text[start..self.at]))
    }
    fn close(&mut self) -> Result<(), u8> {
        if let Token::Close = self.token()? { Ok(()) } else { Err(11) }
    }
    fn number(&mut self, left: usize) -> Result<u8, u8> {
        let listed = match self.token()? {
            Token::Word(b"z") => return Ok(0),
            Token::Open => self.token()?,
            _ => return Err(11),
        };
        let n = match listed {
            Token::Word(b"z") => 0,
            Token::Word(b"s") if left == 0 => return Err(4),
            Token::Word(b"s") => self.number(left - 1)? + 1,
            _ => return Err(11),
        };
        self.close()?;
        Ok(n)
    }
    fn head(&mut self, kind: u8) -> Result<(), u8> {
        if self.nodes == 511 {
            return Err(3);
        }
        self.nodes += 1;
        self.out.push(kind);
        Ok(())
    }
    fn face(&mut self) -> Result<(), u8> {
        let word = match self.token()? {
            Token::Word(b"ff") => return self.head(0),
            Token::Word(b"ft") => return self.head(1),
            Token::Open => self.token()?,
            _ => return Err(11),
        };
        let Token::Word(word) = word else { return Err(11) };
        match word {
            b"ff" => self.head(0)?,
            b"ft" => self.head(1)?,
            b"at0" | b"at1" => {
                self.head(if word == b"at0" { 2 } else { 3 })?;
                let n = self.number(254)?;
                self.out.push(n);
            }
            b"fand" | b"for" => {
                self.head(if word == b"fand" { 4 } else { 5 })?;
                self.face()?;
                self.face()?;
            }
            _ => return Err(11),
        }
        self.close()
    }
}

impl Plain<'_> {
    fn new(text: &[u8]) -> Plain<'_> {
        Plain { text, at: 0, nodes: 0, out: Vec::with_capacity(1024) }
    }
    /// Nothing stands behind what was read.
    fn end(&mut self) -> Result<(), u8> {
        if self.token().is_err() { Ok(()) } else { Err(11) }
    }
    fn next_face(&mut self) -> Result<Vec<u8>, u8> {
        self.nodes = 0;
        self.face()?;
        Ok(std::mem::take(&mut self.out))
    }
}

fn plain_read(text: &[u8], out: &mut [u8]) -> i64 {
    let mut reader = Plain::new(text);
    match reader.face().and_then(|()| reader.end()) {
        Err(q) => -i64::from(q),
        Ok(()) if reader.out.len() > out.len() => -6,
        Ok(()) => {
            out[..reader.out.len()].copy_from_slice(&reader.out);
            reader.out.len() as i64
        }
    }
}

/// d and both faces.
fn plain_claim(line: &[u8]) -> Result<(u8, Vec<u8>, Vec<u8>), u8> {
    let mut reader = Plain::new(line);
    let Token::Word(b"entails") = reader.token()? else { return Err(11) };
    let d = reader.number(255)?;
    let (a, b) = (reader.next_face()?, reader.next_face()?);
    reader.end()?;
    Ok((d, a, b))
}

/// A writer as one would write it in Rust: the formula at the front of the bytes; what follows it, None where there is none.
fn plain_write<'a>(bytes: &'a [u8], out: &mut Vec<u8>) -> Option<&'a [u8]> {
    let (&kind, mut rest) = bytes.split_first()?;
    let head = HEADS.iter().find(|(k, _)| *k == kind)?.1.as_bytes();
    if kind == FF || kind == FT {
        out.extend(head);
        return Some(rest);
    }
    out.push(b'(');
    out.extend(head);
    if has_dimension(kind) {
        let (&n, after) = rest.split_first()?;
        out.push(b' ');
        (0..n).for_each(|_| out.extend(b"(s "));
        out.push(b'z');
        (0..n).for_each(|_| out.push(b')'));
        rest = after;
    }
    for _ in 0..part_count(kind) {
        out.push(b' ');
        rest = plain_write(rest, out)?;
    }
    out.push(b')');
    Some(rest)
}

/// The program with the published Rust's search: the line read, the steps printed. The ledger is taken to be long enough.
fn plain_facesteps(input: &[u8], out: &mut Vec<u8>) {
    let tree = |bytes: &[u8]| read_whole(bytes, Sort::Face).expect("a face");
    let (d, a, b) = plain_claim(facesteps::line(input)).expect("a claim");
    let mut producer = FaceProducer::default();
    let answer = producer.entails(usize::from(d), &rust_face(&tree(&a)), &rust_face(&tree(&b)));
    for (i, step) in producer.path.p.steps.iter().enumerate() {
        printer::step(i, step, out);
    }
    out.extend(format!("yes {}\n", answer.expect("an implication that holds")).bytes());
}

/// The least time of many rounds, in nanoseconds.
fn least(rounds: usize, mut work: impl FnMut()) -> f64 {
    let mut best = f64::MAX;
    for _ in 0..rounds {
        let start = Instant::now();
        work();
        best = best.min(start.elapsed().as_nanos() as f64);
    }
    best
}

fn tell(what: &str, name: &str, length: usize, ours: f64, rust: f64) {
    let (a, b, ratio) = (ours / 1e3, rust / 1e3, ours / rust);
    println!("{what}, {name}: {length} bytes, ours {a:.1} us, plain Rust {b:.1} us, ratio {ratio:.2}");
}

fn time_reading(rounds: usize, name: &str, text: &[u8], face: &[u8]) {
    let (mut a, mut b) = ([0; 1024], [0; 1024]);
    assert_eq!(bytes::read_face(text, &mut a), face.len() as i64);
    assert_eq!(plain_read(text, &mut b), face.len() as i64);
    assert!(a == b && a.starts_with(face));
    let rust = least(rounds, || {
        black_box(plain_read(black_box(text), &mut b));
    });
    let ours = least(rounds, || {
        black_box(bytes::read_face(black_box(text), &mut a));
    });
    tell("reading", name, text.len(), ours, rust);
}

fn time_writing(rounds: usize, name: &str, text: &[u8], face: &[u8]) {
    let (mut a, mut b) = (vec![0; text.len()], vec![]);
    assert_eq!(bytes::write_face(face, &mut a), text.len() as i64);
    assert_eq!(plain_write(face, &mut b), Some(&[][..]));
    assert!(a == text && b == text);
    let rust = least(rounds, || {
        b.clear();
        black_box(plain_write(black_box(face), &mut b));
    });
    let ours = least(rounds, || {
        black_box(bytes::write_face(black_box(face), &mut a));
    });
    tell("writing", name, text.len(), ours, rust);
}

fn time_listing(rounds: usize, name: &str, input: &[u8]) {
    let mut b = vec![];
    plain_facesteps(input, &mut b);
    let mut a = vec![0; b.len()];
    assert_eq!(bytes::facesteps(input, &mut a), b.len() as i64);
    assert!(a == b);
    let rust = least(rounds, || {
        b.clear();
        plain_facesteps(black_box(input), &mut b);
    });
    let ours = least(rounds, || {
        black_box(bytes::facesteps(black_box(input), &mut a));
    });
    tell("listing", name, a.len(), ours, rust);
}

/// Texts of faces of 511 nodes.
fn largest() -> [(&'static str, String); 4] {
    let left = |leaf: &str| "(for ".repeat(255) + leaf + &format!(" {leaf})").repeat(255);
    let right = |leaf: &str| format!("(fand {leaf} ").repeat(255) + leaf + &")".repeat(255);
    let literal = |n: usize| format!("(at1 {})", printer::number(n));
    [
        ("constants, left-deep", left("ff")),
        ("constants, right-deep", right("ft")),
        ("dimension 3, left-deep", left(&literal(3))),
        ("dimension 254, right-deep", right(&literal(254))),
    ]
}

fn main() {
    let rounds = std::env::args().nth(1).map_or(2_000, |w| w.parse().expect("usage: text_times [ROUNDS]"));
    for (name, text) in largest() {
        let face = model::formula(Sort::Face, text.as_bytes()).unwrap();
        time_reading(rounds, name, text.as_bytes(), &face);
    }
    for (name, text) in largest() {
        let face = model::formula(Sort::Face, text.as_bytes()).unwrap();
        time_writing(rounds, name, text.as_bytes(), &face);
    }
    // Deep terms of the Rust need stack.
    fresh(|| {
        time_listing(rounds, "document 01's", b"entails (s z) (at0 z) ft");
        time_listing(rounds.div_ceil(200), "the longest found", &longest_listing());
    });
}

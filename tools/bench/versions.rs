// Times calls, the desk, texts and the normal form in two builds of the library, in turn: the least of the rounds.
// usage: versions ROUNDS
use std::hint::black_box;
use std::time::Instant;

// The functions of both builds, and one that calls the build it is told.
macro_rules! builds {
    ($($name:ident: $before:ident, $after:ident ($($arg:ident: $kind:ty),*);)*) => {
        unsafe extern "C" {
            $(
                fn $before($($arg: $kind),*) -> i64;
                fn $after($($arg: $kind),*) -> i64;
            )*
        }
        $(
            unsafe fn $name(old: bool, $($arg: $kind),*) -> i64 {
                unsafe { if old { $before($($arg),*) } else { $after($($arg),*) } }
            }
        )*
    };
}
builds! {
    boundary: before_lf_boundary, after_lf_boundary
        (l: *mut u8, n: usize, r: *const u8, rn: usize, zero: *mut u8, zn: usize, one: *mut u8, on: usize);
    substitute_face: before_lf_substitute_face, after_lf_substitute_face
        (l: *mut u8, n: usize, t: *const u8, tn: usize, k: u64, r: *const u8, rn: usize, out: *mut u8, on: usize);
    substitute_interval: before_lf_substitute_interval, after_lf_substitute_interval
        (l: *mut u8, n: usize, t: *const u8, tn: usize, k: u64, r: *const u8, rn: usize, out: *mut u8, on: usize);
    normal: before_lf_normal, after_lf_normal (f: *const u8, n: usize, out: *mut u8, on: usize);
    entails: before_lf_entails, after_lf_entails
        (l: *mut u8, n: usize, d: u64, a: *const u8, an: usize, b: *const u8, bn: usize);
    desk: before_lf_step_desk, after_lf_step_desk (l: *const u8, n: usize);
    well_formed: before_lf_well_formed, after_lf_well_formed (l: *const u8, n: usize);
    counterexample: before_lf_counterexample, after_lf_counterexample
        (d: u64, a: *const u8, an: usize, b: *const u8, bn: usize, out: *mut u8, on: usize);
    read_face: before_lf_read_face, after_lf_read_face (t: *const u8, n: usize, out: *mut u8, on: usize);
    write_face: before_lf_write_face, after_lf_write_face (f: *const u8, n: usize, out: *mut u8, on: usize);
}

const OUT: usize = 8192;

// How many dimensions the loads have.
const DIMS: u64 = 8;

// What a call leaves: the answer, the ledger and two outputs.
#[derive(PartialEq)]
struct Left(i64, Vec<u8>, [[u8; OUT]; 2]);

enum Question<'a> {
    Boundary(&'a [u8]),
    Face(&'a [u8], u64, &'a [u8]),
    Interval(&'a [u8], u64, &'a [u8]),
    Normal(&'a [u8]),
    Entails(&'a [u8], &'a [u8]),
    Desk(&'a [u8]),
    WellFormed(&'a [u8]),
    Counterexample(&'a [u8], &'a [u8]),
    Read(&'a [u8]),
    Write(&'a [u8]),
}

impl Question<'_> {
    fn ask(&self, old: bool, left: &mut Left) {
        let Left(answer, ledger, [zero, one]) = left;
        let (l, n) = (ledger.as_mut_ptr(), ledger.len());
        let (zero, one) = (zero.as_mut_ptr(), one.as_mut_ptr());
        // SAFETY: every slice is passed with its length, and no two lent ones overlap.
        *answer = unsafe {
            match *self {
                Question::Boundary(r) => {
                    boundary(old, l, n, r.as_ptr(), r.len(), zero, OUT, one, OUT)
                }
                Question::Face(t, k, r) => substitute_face(
                    old,
                    l,
                    n,
                    t.as_ptr(),
                    t.len(),
                    k,
                    r.as_ptr(),
                    r.len(),
                    zero,
                    OUT,
                ),
                Question::Interval(t, k, r) => substitute_interval(
                    old,
                    l,
                    n,
                    t.as_ptr(),
                    t.len(),
                    k,
                    r.as_ptr(),
                    r.len(),
                    zero,
                    OUT,
                ),
                Question::Normal(f) => normal(old, f.as_ptr(), f.len(), zero, OUT),
                Question::Entails(a, b) => {
                    entails(old, l, n, DIMS, a.as_ptr(), a.len(), b.as_ptr(), b.len())
                }
                Question::Desk(x) => desk(old, x.as_ptr(), x.len()),
                Question::WellFormed(x) => well_formed(old, x.as_ptr(), x.len()),
                Question::Counterexample(a, b) => counterexample(
                    old,
                    DIMS,
                    a.as_ptr(),
                    a.len(),
                    b.as_ptr(),
                    b.len(),
                    zero,
                    OUT,
                ),
                Question::Read(t) => read_face(old, t.as_ptr(), t.len(), zero, OUT),
                Question::Write(f) => write_face(old, f.as_ptr(), f.len(), zero, OUT),
            }
        };
    }
}

// The loads of W14, for faces; an interval of the same shape has i0, i1 and its literals' dimensions, under neg for at1.
struct Load(u32);

impl Load {
    fn draw(&mut self, below: u32) -> u32 {
        self.0 = self.0.wrapping_mul(1664525).wrapping_add(1013904223);
        (self.0 >> 16) % below
    }

    fn formula(&mut self, face: bool, leaves: u32, d: u32, out: &mut Vec<u8>) {
        if leaves == 1 {
            let kind = self.draw(4) as u8;
            match (face, kind) {
                (true, _) => out.push(kind),
                (false, 0 | 1) => out.push(16 + kind),
                (false, 2) => out.push(18),
                (false, _) => out.extend([19, 18]),
            }
            if 1 < kind {
                out.push(self.draw(d) as u8);
            }
            return;
        }
        let binary = self.draw(2) as u8;
        out.push(if face { 4 } else { 20 } + binary);
        let left = self.draw(leaves - 1) + 1;
        self.formula(face, left, d, out);
        self.formula(face, leaves - left, d, out);
    }
}

fn load(seed: u32, face: bool, leaves: u32, d: u32) -> Vec<u8> {
    let mut out = Vec::new();
    Load(seed).formula(face, leaves, d, &mut out);
    out
}

// The least time of a call in nanoseconds, for each build: in turn, both orders.
fn least(question: &Question, rounds: usize) -> [f64; 2] {
    let fresh = || Left(0, vec![0; 65536], [[0; OUT]; 2]);
    let mut left = [fresh(), fresh()];
    let mut best = [f64::INFINITY; 2];
    for round in 0..rounds {
        for turn in 0..2 {
            let build = (round + turn) % 2;
            left[build] = fresh();
            let start = Instant::now();
            question.ask(build == 0, black_box(&mut left[build]));
            best[build] = best[build].min(start.elapsed().as_nanos() as f64);
        }
        assert!(left[0] == left[1], "the two builds differ");
    }
    best
}

fn main() {
    let rounds = std::env::args()
        .nth(1)
        .and_then(|n| n.parse().ok())
        .expect("usage: versions ROUNDS");
    let r = load(9, false, 4, 8);
    println!("| call | leaves | before, µs | after, µs | ratio |");
    println!("|---|---|---|---|---|");
    for leaves in [1, 16, 64, 160] {
        let face = load(1, true, leaves, 8);
        let interval = load(1, false, leaves, 8);
        // Behind its questions: the ledger that entails leaves, and the face as a text.
        let other = load(2, true, leaves, 8);
        let fresh = || Left(0, vec![0; 65536], [[0; OUT]; 2]);
        let mut left = fresh();
        Question::Entails(&face, &face).ask(true, &mut left);
        let mut text = fresh();
        Question::Write(&face).ask(true, &mut text);
        let text = &text.2[0][..text.0 as usize];
        let rows = [
            ("entails itself", Question::Entails(&face, &face)),
            ("entails another", Question::Entails(&face, &other)),
            ("desk on its ledger", Question::Desk(&left.1)),
            ("well formed", Question::WellFormed(&left.1)),
            ("counterexample", Question::Counterexample(&face, &other)),
            ("read face", Question::Read(text)),
            ("write face", Question::Write(&face)),
            ("boundary", Question::Boundary(&interval)),
            ("face-substitute", Question::Face(&face, 3, &r)),
            ("interval-substitute", Question::Interval(&interval, 3, &r)),
            ("normal", Question::Normal(&face)),
        ];
        for (name, question) in &rows {
            let [before, after] = least(question, rounds);
            println!(
                "| {name} | {leaves} | {:.2} | {:.2} | {:.2} |",
                before / 1000.0,
                after / 1000.0,
                after / before
            );
        }
    }
}

//! The commands; `run.sh` beside the workspace builds and starts this.
use judge::check::{self, Tally};
use judge::desk::Desk;
use judge::exhaustive;
use judge::lists::{self, LARGE, SMALL, Style};
use judge::rules;
use judge::sample;
use judge::selftest::{self, Noticed};
use judge::session::fresh;
use judge::text::{self, HEX};
use published::{BYTES, FILES, SUM};
use std::path::{Path, PathBuf};
use std::process::ExitCode;
use std::time::Instant;

const RANDOM_SEED: u64 = 1;

fn sample_folder() -> PathBuf {
    Path::new(env!("CARGO_MANIFEST_DIR")).join("../sample")
}

/// All parts of a run, with what is added up.
struct Run {
    total: Tally,
    failures: Vec<String>,
}

impl Run {
    fn part(&mut self, title: &str, work: impl FnOnce() -> Tally) -> &mut Self {
        let start = Instant::now();
        println!("\n{title}");
        let tally = work();
        println!("{tally}; {:.1} s", start.elapsed().as_secs_f64());
        for difference in tally.differences.iter().take(5) {
            println!("  DIFFERENCE: {}", difference.chars().take(400).collect::<String>());
        }
        self.total.add(tally);
        self
    }
    fn need(&mut self, holds: bool, what: String) {
        println!("  {what}: {}", if holds { "yes" } else { "NO" });
        if !holds {
            self.failures.push(what);
        }
    }
    fn need_all(&mut self, n: Noticed, what: &str) {
        self.need(n.made == n.noticed && n.made > 0, format!("{what}, {} of {}", n.noticed, n.made));
    }
}

fn random_lists(style: Style, first: u64, count: u64) -> Tally {
    let mut tally = Tally::default();
    for seed in first..first + count {
        // A panic of the Rust is a finding, with the seed that brought it about.
        let mut one = std::panic::catch_unwind(|| fresh(|| random_list(style, seed)))
            .unwrap_or_else(|_| Tally { differences: vec!["a panic".into()], ..Tally::default() });
        one.differences.iter_mut().for_each(|d| *d = format!("seed {seed}: {d}"));
        tally.add(one);
    }
    tally
}

fn random_list(style: Style, seed: u64) -> Tally {
    let mut tally = Tally::default();
    let (length, calls) = lists::list(seed, style);
    check::run(length, &calls, &Desk::default(), &mut tally);
    tally
}

/// How much a run does: every so many-th left face, and how many lists.
struct Extent {
    stride: usize,
    small: u64,
    large: u64,
}

const FULL: Extent = Extent { stride: 1, small: 4_000, large: 1_000 };
const QUICK: Extent = Extent { stride: 40, small: 400, large: 60 };

fn exhaustive_parts(run: &mut Run, extent: &Extent) {
    let faces = exhaustive::faces_up_to(5, 2);
    let left: Vec<_> = faces.iter().step_by(extent.stride).cloned().collect();
    let pairs = left.len() * faces.len();
    let title = format!(
        "entails, d 2, on pairs of faces up to 5 nodes over 2 dimensions: {} left, {} right, {pairs} pairs of {}",
        left.len(),
        faces.len(),
        faces.len() * faces.len()
    );
    run.part(&title, || exhaustive::entailments(&left));
    run.part(
        "entails, d 0 to 3, on every pair up to 3 nodes over 2 dimensions, each from an empty ledger",
        exhaustive::small_entailments,
    );
    run.part("every other call on every small formula, numbers 0 to 3", exhaustive::operations);
}

fn random_parts(run: &mut Run, extent: &Extent) {
    let title = |what: &str, seed, count| format!("random lists, {what}, seeds {seed} to {}", seed + count - 1);
    run.part(&title("up to 15 nodes", RANDOM_SEED, extent.small), || random_lists(SMALL, RANDOM_SEED, extent.small));
    let first = RANDOM_SEED + 1_000_000;
    run.part(&title("up to 511 nodes and dimension 254", first, extent.large), || {
        random_lists(LARGE, first, extent.large)
    });
}

fn sample_parts(run: &mut Run) {
    for file in ["lists.txt", "small.txt"] {
        let stored = std::fs::read_to_string(sample_folder().join(file)).unwrap_or_default();
        let mut kinds = 0;
        let title = format!("stored sample {file}, {} bytes, held against the Rust", stored.len());
        run.part(&title, || {
            let tally = sample::held(&stored);
            kinds = tally.kinds_seen();
            tally
        });
        run.need(kinds == rules::RULES.len(), format!("all 75 kinds occur in {file}"));
    }
}

fn self_tests(run: &mut Run) {
    println!("\nthe checks themselves");
    run.need_all(selftest::references(), "altered references that the desk notices");
    run.need_all(selftest::sample_lines(), "altered sample lines that are noticed");
    run.need_all(fresh(selftest::decisions), "pairs on which all assignments, least assignments and the search agree");
    run.need(selftest::round_trip(), "the sample's text reads back as the same calls".into());
    run.need(selftest::repeatable(), "a list run twice gives the same answers and bytes".into());
}

fn everything(extent: &Extent) -> bool {
    println!("published source: {FILES} files, {BYTES} bytes, sum {SUM:016x}");
    let mut run = Run { total: Tally::default(), failures: vec![] };
    exhaustive_parts(&mut run, extent);
    random_parts(&mut run, extent);
    sample_parts(&mut run);
    self_tests(&mut run);
    println!("\ntogether\n{}", run.total);
    let good = run.total.differences.is_empty() && run.failures.is_empty();
    println!("{}", if good { "all agree" } else { "NOT all agree" });
    good
}

fn write_samples() -> bool {
    let folder = sample_folder();
    let (large, all) = sample::large();
    let (small, few) = sample::small();
    let files = [("lists.txt", large), ("small.txt", small), ("small-decimal.txt", sample::small_decimal())];
    std::fs::create_dir_all(&folder).expect("the sample folder");
    for (name, text) in files {
        let longest = text.lines().map(str::len).max().unwrap_or(0);
        println!("{name}: {} bytes, longest line {longest}", text.len());
        std::fs::write(folder.join(name), text).expect("a sample file");
    }
    println!("lists.txt\n{all}\nsmall.txt\n{few}");
    all.differences.is_empty() && few.differences.is_empty() && all.kinds_seen() == 75 && few.kinds_seen() == 75
}

fn read_file(name: &str) -> Vec<text::Entry> {
    let stored = std::fs::read_to_string(name).unwrap_or_else(|e| panic!("{name}: {e}"));
    text::read(&stored).unwrap_or_else(|e| panic!("{name}: {e}"))
}

/// The Rust's answers to the calls in a file, whatever answers it has.
fn answer(name: &str) -> bool {
    let entries = read_file(name);
    let lists: Vec<_> = entries.into_iter().map(|e| (e.length, e.calls)).collect();
    let (out, tally) = sample::write_lists(&lists, HEX);
    print!("{out}");
    tally.differences.is_empty()
}

/// One list's steps as document 01's listing prints them.
fn show(name: &str, number: &str) -> bool {
    let wanted = read_file(name).into_iter().find(|e| e.number.to_string() == number);
    let Some(entry) = wanted else { return false };
    print!("{}", fresh(|| sample::listing(&(entry.length, entry.calls))));
    true
}

fn held(name: &str) -> bool {
    let stored = std::fs::read_to_string(name).unwrap_or_else(|e| panic!("{name}: {e}"));
    let tally = sample::held(&stored);
    println!("{tally}");
    tally.differences.iter().for_each(|d| println!("  DIFFERENCE: {d}"));
    tally.differences.is_empty()
}

fn bench() -> bool {
    judge::bench::print();
    true
}

fn main() -> ExitCode {
    let args: Vec<_> = std::env::args().skip(1).collect();
    let words: Vec<_> = args.iter().map(String::as_str).collect();
    let good = match words[..] {
        [] | ["run"] => everything(&FULL),
        ["quick"] => everything(&QUICK),
        ["sample"] => write_samples(),
        ["check", file] => held(file),
        ["answer", file] => answer(file),
        ["show", file, number] => show(file, number),
        ["bench"] => bench(),
        _ => {
            println!("run | quick | sample | check FILE | answer FILE | show FILE LIST | bench");
            false
        }
    };
    if good { ExitCode::SUCCESS } else { ExitCode::FAILURE }
}

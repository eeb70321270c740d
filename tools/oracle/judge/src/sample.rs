//! The stored samples: made, written, read and held against the Rust.
use crate::call::Call;
use crate::check::{self, Tally};
use crate::desk::Desk;
use crate::fixed;
use crate::lists::{self, Style};
use crate::session::fresh;
use crate::text::{self, DECIMAL, Entry, HEX, Print};
use published::{BYTES, FILES, SUM};
use std::fmt::Write;

pub const SEED: u64 = 20_251_115;

/// Many calls on small formulas; ledgers stored in full.
const MANY: Style =
    Style { most_nodes: 5, most_calls: 40, most_covers: 100, most_dims: 2, lengths: &[4_000], broken: 4 };

/// Few calls on larger formulas; ledgers stored in full.
const FEW: Style = Style {
    most_nodes: 15,
    most_calls: 10,
    most_covers: 100,
    most_dims: 4,
    lengths: &[4_000, 4_000, 4_000, 1_500, 400],
    broken: 4,
};

/// Formulas up to the limits; ledgers stored as sums.
const SUMMED: Style = Style {
    most_nodes: 511,
    most_calls: 7,
    most_covers: 600,
    most_dims: 255,
    lengths: &[65_536, 65_536, 262_144],
    broken: 3,
};

/// How many lists of each style, and where their seeds start.
const PARTS: [(u64, Style, u64); 3] = [(SEED, MANY, 120), (SEED + 1_000, FEW, 140), (SEED + 2_000, SUMMED, 40)];

pub type List = (usize, Vec<Call>);

/// The lists of the large sample: fixed ones, then random ones by their seeds.
fn all_lists() -> Vec<List> {
    let mut all = fixed::lists();
    for (seed, style, count) in PARTS {
        all.extend((0..count).map(|i| lists::list(seed + i, style)));
    }
    all
}

/// One list with its answers and its ledger.
fn write_list(number: usize, list: &List, print: Print, out: &mut String) -> Tally {
    let mut tally = Tally::default();
    let (answers, used) = check::run(list.0, &list.1, &Desk::default(), &mut tally);
    writeln!(out, "list {number}\nledger {}", list.0).unwrap();
    for (call, answer) in list.1.iter().zip(&answers) {
        writeln!(out, "{}\n{}", text::call_line(call, print), text::answer_line(answer, print)).unwrap();
    }
    writeln!(out, "{}", text::ending_line(&used, print)).unwrap();
    tally
}

pub fn write_lists(lists: &[List], print: Print) -> (String, Tally) {
    let (mut out, mut tally) = (String::new(), Tally::default());
    for (i, list) in lists.iter().enumerate() {
        tally.add(fresh(|| write_list(i + 1, list, print, &mut out)));
    }
    (out, tally)
}

fn heading(what: &str) -> String {
    format!(
        "# {what}\n# Made by `tools/oracle/run.sh sample` from the published source ({FILES} files, {BYTES} bytes, sum {SUM:016x}); the format is in tools/oracle/README.md.\n"
    )
}

/// The large sample's text.
pub fn large() -> (String, Tally) {
    let fixed = fixed::lists().len();
    let parts = PARTS.map(|(seed, _, count)| format!(", then {count} random ones by the seeds from {seed} on"));
    let what = format!("Lists 1 to {fixed} are made by hand{}.", parts.concat());
    let (body, tally) = fresh(|| write_lists(&all_lists(), HEX));
    (heading(&what) + &body, tally)
}

const SMALL: &str = "A dozen short ledgers that hold every kind between them.";

/// The small sample's text: every kind in a dozen short ledgers.
pub fn small() -> (String, Tally) {
    let (body, tally) = write_lists(&fixed::every_kind(), HEX);
    (heading(SMALL) + &body, tally)
}

/// The same in decimal bytes, each ledger followed by its listing.
pub fn small_decimal() -> String {
    let mut out = heading(SMALL);
    for (i, list) in fixed::every_kind().iter().enumerate() {
        write_list(i + 1, list, DECIMAL, &mut out);
        listing(list).lines().for_each(|step| writeln!(out, "# {step}").unwrap());
    }
    out
}

/// The steps of a list as document 01's listing prints them.
pub fn listing(list: &List) -> String {
    let mut session = crate::session::Session::new(list.0);
    list.1.iter().for_each(|call| drop(session.ask(call)));
    let mut out = String::new();
    for (i, (rule, refs, judgement)) in session.steps().iter().enumerate() {
        let refs: Vec<_> = refs.iter().map(usize::to_string).collect();
        writeln!(out, "{i} {rule} [{}] {judgement}", refs.join(",")).unwrap();
    }
    out
}

/// Whether the Rust gives the stored answers and ledger.
fn same(entry: &Entry, tally: &mut Tally) -> bool {
    let (answers, used) = check::run(entry.length, &entry.calls, &Desk::default(), tally);
    let lines = answers.iter().map(|a| text::answer_line(a, HEX));
    lines.eq(entry.answers.iter().cloned()) && text::ending_line(&used, HEX) == entry.ending
}

/// Holds a stored file against the Rust, list by list.
pub fn held(stored: &str) -> Tally {
    let mut tally = Tally::default();
    let entries = match text::read(stored) {
        Ok(entries) => entries,
        Err(why) => {
            tally.differences.push(why);
            return tally;
        }
    };
    for entry in &entries {
        let mut one = Tally::default();
        if !fresh(|| same(entry, &mut one)) {
            one.differences.push(format!("list {} is not what the Rust answers", entry.number));
        }
        tally.add(one);
    }
    if stored.lines().any(|l| l.len() >= text::LINE) {
        tally.differences.push("a line is too long".into());
    }
    tally
}

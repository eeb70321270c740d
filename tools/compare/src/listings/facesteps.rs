//! What document 01's program `facesteps` prints: the line is read by the model, the steps are the published Rust's.
use crate::listings::printer;
use crate::texts::model::{self, Claim, Outcome};
use judge::call::{Answer, Call, Name};
use judge::cost;
use judge::formula::{Sort, Tree, read_whole};
use judge::session::Session;

/// The longest line that is read.
pub const LONGEST_LINE: usize = 4_096;
/// The bytes of the program's ledger.
pub const LEDGER: usize = 65_536;
/// Searches of more covers are left out: the Rust does not end soon.
pub const MOST_COVERS: u64 = 2_000;

/// The bytes before the first byte 10.
pub fn line(input: &[u8]) -> &[u8] {
    input.split(|b| *b == b'\n').next().unwrap_or_default()
}

fn read(input: &[u8]) -> Outcome<Claim> {
    let line = line(input);
    if line.len() > LONGEST_LINE { Err(11) } else { model::claim(line) }
}

fn tree(face: &[u8]) -> Tree {
    read_whole(face, Sort::Face).expect("a face that was read")
}

/// Whether the Rust's search ends soon; it does not start where a dimension is not below d.
fn is_short(d: usize, a: &Tree, b: &Tree) -> bool {
    a.bound().max(b.bound()) > d || cost::search(a, b, MOST_COVERS).0.is_some()
}

fn refused(question: usize) -> Vec<u8> {
    format!("refused {question}\n").into_bytes()
}

/// The steps that the Rust leaves and the verdict, or only the verdict where the ledger is too short.
fn searched(d: usize, a: &Tree, b: &Tree) -> Vec<u8> {
    let mut session = Session::new(LEDGER);
    let (answer, _) = session.ask(&Call::new(Name::Entails, d, &[a, b]));
    let verdict = match answer {
        Answer::Refused(7) => return refused(7),
        Answer::Refused(question) => refused(question),
        Answer::Yes(step, _) => format!("yes {step}\n").into_bytes(),
    };
    [printer::lines(session.steps()).concat(), verdict].concat()
}

/// All that is printed for this standard input; None where the search is left out.
pub fn printed(input: &[u8]) -> Option<Vec<u8>> {
    let (d, a, b) = match read(input) {
        Ok((d, a, b)) => (d, tree(&a), tree(&b)),
        Err(question) => return Some(refused(usize::from(question))),
    };
    is_short(d, &a, &b).then(|| searched(d, &a, &b))
}

/// The first word of the last line, and for a refusal its number.
pub fn verdict(printed: &[u8]) -> String {
    let text = String::from_utf8_lossy(printed);
    let last = text.lines().last().unwrap_or_default();
    if last.starts_with("yes ") { "yes".into() } else { last.into() }
}

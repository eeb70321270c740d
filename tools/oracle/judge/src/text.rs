//! The sample's plain text: one item a line. README.md gives the format.
use crate::call::{Answer, CALLS, Call, Name, Number};
use crate::formula::{AND, AT0, AT1, FF, OR, Tree};
use crate::ledger;

/// A ledger longer than this is stored as its length and sum only.
pub const LONGEST_SHOWN: usize = 4_000;
/// No line is as long as this.
pub const LINE: usize = 8_192;

/// What stands in the file for one list.
pub struct Entry {
    pub number: usize,
    pub length: usize,
    pub calls: Vec<Call>,
    pub answers: Vec<String>,
    pub ending: String,
}

fn hex(bytes: &[u8]) -> String {
    if bytes.is_empty() {
        return "-".into();
    }
    bytes.iter().map(|b| format!("{b:02x}")).collect()
}

/// The bytes that were printed in hex.
pub fn unhex(word: &str) -> Option<Vec<u8>> {
    if word == "-" {
        return Some(vec![]);
    }
    (0..word.len()).step_by(2).map(|i| u8::from_str_radix(word.get(i..i + 2)?, 16).ok()).collect()
}

/// Decimal bytes, for pasting into other languages.
fn decimal(bytes: &[u8]) -> String {
    let numbers: Vec<_> = bytes.iter().map(u8::to_string).collect();
    format!("[{}]", numbers.join(","))
}

/// How bytes are printed.
pub type Print = fn(&[u8]) -> String;
pub const HEX: Print = hex;
pub const DECIMAL: Print = decimal;

pub fn call_line(call: &Call, print: Print) -> String {
    let signature = call.name.signature();
    let mut words = vec![signature.word.to_owned()];
    if signature.number != Number::None {
        words.push(call.number.to_string());
    }
    if call.name == Name::Endpoint {
        words.push(u8::from(call.one).to_string());
    }
    words.extend(call.rooms.iter().map(usize::to_string));
    words.extend(call.operands.iter().map(|b| print(b)));
    words.join(" ")
}

pub fn answer_line(answer: &Answer, print: Print) -> String {
    match answer {
        Answer::Yes(step, results) => {
            let results = results.iter().map(|b| format!(" {}", print(b)));
            format!("yes {step}{}", results.collect::<String>())
        }
        Answer::Refused(question) => format!("refused {question}"),
    }
}

pub fn ending_line(used: &[u8], print: Print) -> String {
    if used.len() <= LONGEST_SHOWN {
        return format!("ledger-is {}", print(used));
    }
    let (a, b) = ledger::sum(used);
    format!("ledger-sum {} {a} {b}", used.len())
}

fn read_call<'a>(word: &str, mut words: impl Iterator<Item = &'a str>) -> Option<Call> {
    let signature = CALLS.iter().find(|s| s.word == word)?;
    let mut number = || words.next()?.parse::<usize>().ok();
    let n = if signature.number == Number::None { 0 } else { number()? };
    let one = signature.name == Name::Endpoint && number()? == 1;
    let rooms = (0..signature.outputs).map(|_| number()).collect::<Option<Vec<_>>>()?;
    let operands = signature.sorts.iter().map(|_| unhex(words.next()?)).collect::<Option<Vec<_>>>()?;
    words.next().is_none().then_some(Call { name: signature.name, number: n, one, rooms, operands })
}

/// The call of one line.
pub fn call(line: &str) -> Option<Call> {
    let mut words = line.split(' ');
    read_call(words.next()?, words)
}

/// Takes one line into the entries.
fn take(line: &str, entries: &mut Vec<Entry>) -> Option<()> {
    let mut words = line.split(' ');
    let first = words.next()?;
    if first == "list" {
        let number = words.next()?.parse().ok()?;
        entries.push(Entry { number, length: 0, calls: vec![], answers: vec![], ending: String::new() });
        return Some(());
    }
    let entry = entries.last_mut()?;
    match first {
        "ledger" => entry.length = words.next()?.parse().ok()?,
        "yes" | "refused" => entry.answers.push(line.to_owned()),
        "ledger-is" | "ledger-sum" => entry.ending = line.to_owned(),
        _ => entry.calls.push(read_call(first, words)?),
    }
    Some(())
}

pub fn read(text: &str) -> Result<Vec<Entry>, String> {
    let mut entries = vec![];
    for (i, line) in text.lines().enumerate() {
        if !line.is_empty() && !line.starts_with('#') {
            take(line, &mut entries).ok_or_else(|| format!("line {} can't be read", i + 1))?;
        }
    }
    Ok(entries)
}

/// A face as document 01 abbreviates it: n for at0 n, n' for at1 n.
pub fn notation(t: &Tree) -> String {
    let inner = |t: &Tree| if t.parts.is_empty() { notation(t) } else { format!("({})", notation(t)) };
    match t.kind {
        AT0 => t.dim.to_string(),
        AT1 => format!("{}'", t.dim),
        AND => format!("{} fand {}", inner(&t.parts[0]), inner(&t.parts[1])),
        OR => format!("{} for {}", inner(&t.parts[0]), inner(&t.parts[1])),
        FF => "ff".into(),
        _ => "ft".into(),
    }
}

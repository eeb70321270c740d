//! Our writers and `facesteps` asked, with outputs of several lengths, beside what they should write.
use crate::lent::Lent;
use crate::library::{read, write};
use crate::listings::ledgers::Ledger;
use crate::outputs::{self, Said, one};
use judge::formula::Sort;
use judge::random::Random;
use linefeijoa::bytes;

/// Outputs of exactly the length, and of another: mostly one byte less, else more, less or none.
pub fn rooms(random: &mut Random, needed: usize) -> [usize; 2] {
    let other = match random.below(10) {
        0..5 => needed.saturating_sub(1),
        5 => 0,
        6 => random.below(needed + 1),
        _ => needed + random.between(1, 40),
    };
    [needed, other]
}

/// How often these outputs are refused by 6.
pub fn short(said: &Said, rooms: &[usize]) -> u64 {
    rooms.iter().filter(|room| outputs::number(said, &[**room]) == -6).count() as u64
}

/// Asks once for each length; the lent input stays as it is.
pub fn each(said: &Said, rooms: &[usize], input: &[u8], call: impl Fn(&[u8], &mut [u8]) -> i64) -> Result<(), String> {
    for room in rooms {
        let lent = Lent::new(input);
        outputs::ask(said, &[*room], |out| call(lent.content(), out[0].slice()))?;
        lent.same("the input", input)?;
    }
    Ok(())
}

/// `lf_facesteps` of an input for which this is printed.
pub fn facesteps(input: &[u8], said: &Said, rooms: &[usize]) -> Result<(), String> {
    each(said, rooms, input, bytes::facesteps)
}

/// `lf_write_face` or `lf_write_interval`; what was written is read back.
pub fn formula(sort: Sort, operand: &[u8], said: &Said, rooms: &[usize]) -> Result<(), String> {
    each(said, rooms, operand, |operand, out| write(sort, operand, out))?;
    if let Ok((_, texts)) = said {
        let back = one(Ok(operand.to_vec()));
        let read = each(&back, &[operand.len()], &texts[0], |text, out| read(sort, text, out));
        read.map_err(|difference| format!("read back: {difference}"))?;
    }
    Ok(())
}

/// `lf_write_step` of one step.
pub fn step(ledger: &Ledger, step: u64, said: &Said, rooms: &[usize]) -> Result<(), String> {
    each(said, rooms, &ledger.bytes, |lent, out| bytes::write_step(lent, step, out))
}

/// The first line that our `facesteps` prints otherwise.
pub fn first_other_line(input: &[u8], printed: &[u8]) -> String {
    let mut out = vec![0; printed.len() + (1 << 16)];
    let answered = bytes::facesteps(input, &mut out);
    let Ok(length) = usize::try_from(answered) else { return format!("answered {answered}") };
    let ours = &out[..length.min(out.len())];
    let mut pairs = ours.split(|b| *b == b'\n').zip(printed.split(|b| *b == b'\n'));
    let text = |line: &[u8]| String::from_utf8_lossy(line).escape_debug().to_string();
    match pairs.find(|(a, b)| a != b) {
        Some((a, b)) => format!("our line: {}\n  expected: {}", text(a), text(b)),
        None => format!("no line differs; answered {answered}, expected {}", printed.len()),
    }
}

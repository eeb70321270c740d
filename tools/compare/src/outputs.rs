//! Calls that fill lent slices: the number that they answer, and every byte of the slices.
use crate::lent::Lent;
use judge::random::Random;

/// The number that a call should answer and the results that it should write, or its refusal.
pub type Said = Result<(i64, Vec<Vec<u8>>), u8>;

/// A call with one result, which answers its length.
pub fn one(result: Result<Vec<u8>, u8>) -> Said {
    result.map(|bytes| (bytes.len() as i64, vec![bytes]))
}

/// The length of an output: what is needed, one byte less, none, more.
pub fn room(random: &mut Random, needed: usize) -> usize {
    match random.below(6) {
        0 => needed.saturating_sub(1),
        1 => 0,
        2 => needed,
        _ => needed + random.below(40),
    }
}

/// The number that is answered with outputs of these lengths: 6 comes last.
pub fn number(said: &Said, rooms: &[usize]) -> i64 {
    match said {
        Err(question) => -i64::from(*question),
        Ok((_, results)) if results.iter().zip(rooms).any(|(r, room)| r.len() > *room) => -6,
        Ok((number, _)) => *number,
    }
}

/// The outputs as they should be afterwards: results in front, all other bytes as they were.
fn afterwards(before: &[Lent], said: &Said, number: i64) -> Vec<Vec<u8>> {
    let mut after: Vec<_> = before.iter().map(|out| out.content().to_vec()).collect();
    if let (Ok((_, results)), true) = (said, number >= 0) {
        after.iter_mut().zip(results).for_each(|(out, r)| out[..r.len()].copy_from_slice(r));
    }
    after
}

/// Asks with outputs of these lengths, filled beforehand. The number, or what differs.
pub fn ask(said: &Said, rooms: &[usize], call: impl FnOnce(&mut [Lent]) -> i64) -> Result<i64, String> {
    let mut outputs: Vec<_> = rooms.iter().enumerate().map(|(i, room)| Lent::pattern(*room, room + i)).collect();
    let expected = number(said, rooms);
    let after = afterwards(&outputs, said, expected);
    let answered = call(&mut outputs);
    if answered != expected {
        return Err(format!("answered {answered}, expected {expected}, outputs of {rooms:?} bytes"));
    }
    for (i, (output, want)) in outputs.iter().zip(&after).enumerate() {
        output.same(&format!("output {i}"), want)?;
    }
    Ok(answered)
}

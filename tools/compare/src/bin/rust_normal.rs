//! Prints for its standard input, cases as `tools/normal/cases.py` writes them, what the published `Face::normal` answers.
use compare::normal::expected::expected;
use compare::outputs;
use judge::session::fresh;
use std::io::{Read, Write};

/// The byte that lent slices are filled with.
const FILL: u8 = 255;

/// The number of four bytes in front, the lowest first.
fn number(input: &mut &[u8]) -> usize {
    let (front, rest) = input.split_first_chunk().expect("four bytes");
    *input = rest;
    u32::from_le_bytes(*front) as usize
}

/// So many bytes in front.
fn part<'a>(input: &mut &'a [u8], length: usize) -> &'a [u8] {
    let (front, rest) = input.split_at(length);
    *input = rest;
    front
}

/// The line of a case.
fn line(label: &[u8], room: usize, operand: &[u8]) -> Vec<u8> {
    let said = expected(operand).said;
    let mut left = vec![FILL; room];
    let answer = outputs::number(&said, &[room]);
    let mut out = label.to_vec();
    match said {
        Ok((length, results)) if answer >= 0 => {
            left[..results[0].len()].copy_from_slice(&results[0]);
            out.extend(format!(" length {length}:").bytes());
        }
        _ => out.extend(format!(" refused {}:", -answer).bytes()),
    }
    left.iter().for_each(|byte| out.extend(format!(" {byte}").bytes()));
    out.push(b'\n');
    out
}

fn main() {
    let mut input = vec![];
    std::io::stdin().read_to_end(&mut input).expect("standard input");
    let mut rest = &input[..];
    while !rest.is_empty() {
        let (label, room, operand) = (number(&mut rest), number(&mut rest), number(&mut rest));
        let (label, operand) = (part(&mut rest, label), part(&mut rest, operand));
        let line = fresh(|| line(label, room, operand));
        std::io::stdout().write_all(&line).expect("standard output");
    }
}

//! Inputs of `facesteps`: claims in every spelling, damaged copies, lines at the limits; and operands to write.
use crate::listings::facesteps::LONGEST_LINE;
use crate::listings::printer;
use crate::lists::spoil_operand;
use crate::texts::made;
use crate::texts::model::{Token, tokens};
use judge::formula::{AND, AT0, AT1, FF, FT, OR, Sort, Tree, at, leaf, pair};
use judge::lists::{self, Style};
use judge::random::{Random, SHAPES, Shape, face, grown, interval};

/// d and both faces.
pub type Claim = (usize, Tree, Tree);

const SMALL: Style = Style { most_nodes: 15, most_calls: 40, most_covers: 0, most_dims: 4, lengths: &[0], broken: 0 };
/// Searches of many steps, which may fill the ledger.
const MIDDLE: Style = Style { most_nodes: 127, most_dims: 8, ..SMALL };
const LARGE: Style = Style { most_nodes: 511, most_dims: 3, ..SMALL };
/// Few literals, of any dimension.
const WIDE: Style = Style { most_nodes: 7, most_dims: 255, ..SMALL };

fn style(random: &mut Random) -> Style {
    match random.below(100) {
        0..60 => SMALL,
        60..80 => MIDDLE,
        80..90 => LARGE,
        _ => WIDE,
    }
}

/// Spaces only between two words.
pub fn tight(text: &[u8]) -> Vec<u8> {
    let mut out: Vec<u8> = vec![];
    for token in tokens(text) {
        match token {
            Token::Open => out.push(b'('),
            Token::Close => out.push(b')'),
            Token::Word(word) => {
                if out.last().is_some_and(|b| !b"()".contains(b)) {
                    out.push(b' ');
                }
                out.extend(word);
            }
        }
    }
    out
}

/// As the writer spells it.
pub fn plain((d, a, b): &Claim) -> Vec<u8> {
    let mut out = format!("entails {} ", printer::number(*d)).into_bytes();
    printer::formula(a, &mut out);
    out.push(b' ');
    printer::formula(b, &mut out);
    out
}

/// Spaces and parentheses as the grammar allows; byte 10 would end the line.
fn varied(random: &mut Random, (d, a, b): &Claim) -> Vec<u8> {
    let mut out = b"entails".to_vec();
    made::number(random, &mut out, *d);
    made::formula(random, &mut out, a);
    made::formula(random, &mut out, b);
    out.iter_mut().filter(|b| **b == b'\n').for_each(|b| *b = b' ');
    out
}

/// A spelling that fits in a line, if one does.
fn spelled(random: &mut Random, claim: &Claim) -> Option<Vec<u8>> {
    let text = match random.below(4) {
        0 => plain(claim),
        1 => tight(&plain(claim)),
        _ => varied(random, claim),
    };
    [text, tight(&plain(claim))].into_iter().find(|text| text.len() <= LONGEST_LINE)
}

/// The line with what may stand behind it: byte 10, nothing, or more lines, which are not read.
fn ended(random: &mut Random, mut line: Vec<u8>) -> Vec<u8> {
    match random.below(10) {
        0 => {}
        1 => {
            line.push(b'\n');
            line.extend(made::soup(random));
        }
        _ => line.push(b'\n'),
    }
    line
}

/// Some claims that fit in a line, by their seed.
pub fn claims(seed: u64) -> Vec<Vec<u8>> {
    let mut random = Random::new(!seed);
    let claims = lists::claims(seed, style(&mut random));
    let texts: Vec<_> = claims.iter().filter_map(|claim| spelled(&mut random, claim)).collect();
    texts.into_iter().map(|text| ended(&mut random, text)).collect()
}

/// A face of constants with about the most nodes, or a literal of about the highest dimension.
fn face_at_limit(random: &mut Random) -> Tree {
    if random.chance(50) {
        return at(*random.pick(&[AT0, AT1]), random.between(252, 255) as u8);
    }
    let shape = *random.pick(&[Shape::LeftDeep, Shape::RightDeep]);
    let leaves = random.between(254, 258);
    grown(shape, leaves, random, &mut |r| *r.pick(&[AND, OR]), &mut |r| leaf(*r.pick(&[FF, FT])))
}

/// A claim at the limits of nodes and dimensions.
fn at_limit(random: &mut Random) -> Vec<u8> {
    let d = *random.pick(&[0, 1, 253, 254, 255, 256, 257]);
    let (a, b) = (face_at_limit(random), face_at_limit(random));
    let claim = (d, a, if random.chance(50) { leaf(FF) } else { b });
    tight(&plain(&claim))
}

/// The text with spaces up to about the longest line, at one place.
fn padded(random: &mut Random, mut text: Vec<u8>) -> Vec<u8> {
    let length = LONGEST_LINE - 2 + random.below(5);
    let anywhere = random.below(text.len() + 1);
    let place = *random.pick(&[0, text.len(), anywhere]);
    let spaces = vec![b' '; length.saturating_sub(text.len())];
    text.splice(place..place, spaces);
    text
}

/// Bytes that stand in tokens, though other readers take them for spaces.
const ODD: [u8; 8] = [b'\t', b'\r', 0, 11, 127, 128, 160, 255];

/// Some or all spaces made an odd byte.
fn respaced(random: &mut Random, mut text: Vec<u8>) -> Vec<u8> {
    let (odd, share) = (*random.pick(&ODD), *random.pick(&[5, 30, 100]));
    for byte in text.iter_mut().filter(|b| **b == b' ') {
        if random.chance(share) {
            *byte = odd;
        }
    }
    text
}

/// Two tokens exchanged, or one left out or doubled.
fn shuffled(random: &mut Random, text: &[u8]) -> Vec<u8> {
    let mut all = tokens(text);
    if all.is_empty() {
        return vec![];
    }
    let (i, j) = (random.below(all.len()), random.below(all.len()));
    match random.below(3) {
        0 => all.swap(i, j),
        1 => drop(all.remove(i)),
        _ => all.insert(j, all[i].clone()),
    }
    let words = all.iter().map(|token| match token {
        Token::Open => b"(".to_vec(),
        Token::Close => b")".to_vec(),
        Token::Word(word) => word.clone(),
    });
    words.collect::<Vec<_>>().join(&b' ')
}

/// Some bytes of any value.
fn noise(random: &mut Random) -> Vec<u8> {
    (0..random.below(60)).map(|_| random.below(256) as u8).collect()
}

fn damaged(random: &mut Random, text: &[u8]) -> Vec<u8> {
    match random.below(20) {
        0..8 => made::damaged(random, text),
        8 => respaced(random, text.to_vec()),
        9..12 => shuffled(random, text),
        12..14 => padded(random, text.to_vec()),
        14 => made::soup(random),
        15 => noise(random),
        16 => made::claim_text(random, 9),
        17 => at_limit(random),
        18 => {
            let text = at_limit(random);
            made::damaged(random, &text)
        }
        _ => text[..random.below(text.len() + 1)].to_vec(),
    }
}

/// Damaged and random inputs, by their seed.
pub fn damages(seed: u64) -> Vec<Vec<u8>> {
    let mut random = Random::new(seed);
    let texts = claims(!seed);
    texts
        .iter()
        .map(|text| {
            let other = damaged(&mut random, text);
            if random.chance(30) { ended(&mut random, other) } else { other }
        })
        .collect()
}

/// A face of constants with so many leaves, deep to the left, in as few bytes as can be.
fn constants(leaves: usize) -> String {
    "(for".repeat(leaves - 1) + " ff" + &" ff)".repeat(leaves - 1)
}

/// The tip under so many `fand ft`.
fn conjunction(count: usize, tip: &str) -> String {
    "(fand ft".repeat(count) + " " + tip + &")".repeat(count)
}

/// Claims whose steps the ledger just takes, or is too short for.
pub fn full_ledgers() -> Vec<Vec<u8>> {
    let mut texts = vec![];
    for n in [20, 40, 60, 80, 120, 200] {
        for goal in ["(at0 z)", "(at1 z)"] {
            texts.push(format!("entails (s z) {} {goal}\n", conjunction(n, "(at0 z)")));
        }
    }
    // These take 65,536 bytes, and 65,537.
    let number = printer::number;
    let (literal, most) = (|side: usize, n: usize| format!("(at{side} {})", number(n)), 76);
    let a = format!("(fand {} (fand {} ff))", conjunction(most, &literal(0, 2)), literal(0, 1));
    let b = format!("(for (for {} (for ft {})) {})", literal(1, 3), literal(0, 3), literal(0, 2));
    texts.push(format!("entails {} {a} {b}\n", number(4)));
    let a = format!("(fand {} (fand {} ff))", conjunction(most, &literal(0, 2)), literal(0, 0));
    let b = format!("(for (for {} (for {1} {1})) {2})", literal(0, 0), literal(1, 2), literal(0, 2));
    texts.push(format!("entails {} {a} {b}\n", number(3)));
    texts.into_iter().map(String::into_bytes).chain([longest_listing()]).collect()
}

/// The claim with the longest listing that was found, 9,353,324 bytes: choices among small faces, whose contexts all carry
/// dimension 254 four times. Its steps take 65,534 bytes of the ledger.
pub fn longest_listing() -> Vec<u8> {
    let (x, d) = (format!("(at0 {})", printer::number(254)), printer::number(255));
    let choices = "
        (for (fand (for (for (at0 z) (for (for (at0 (s z)) (at0 (s (s z)))) ft)) (fand ft (at1 z)))
                   (fand (for (at0 z) (for (for (at0 (s z)) (at0 (s (s z)))) ft))
                         (fand (for (at0 (s z)) (for (at0 z) ft)) (for ft (at0 z)))))
             (for (for (at1 z) ft) (at0 z)))";
    let text = format!("entails {d} (fand {choices} (fand {x} (fand {x} (fand {x} {x})))) (for ft ff)");
    tight(text.as_bytes())
}

/// Lines about the longest, with what may stand behind them.
fn long_lines() -> Vec<Vec<u8>> {
    let mut inputs = vec![];
    for length in [LONGEST_LINE - 1, LONGEST_LINE, LONGEST_LINE + 1, 10 * LONGEST_LINE] {
        let mut line = b"entails z ff ff".to_vec();
        line.resize(length, b' ');
        inputs.push([&line[..], b"\n"].concat());
        inputs.push([&line[..], b"\nentails z"].concat());
        inputs.push(line);
        inputs.push(vec![b'('; length]);
        inputs.push(vec![b'x'; length]);
    }
    inputs
}

/// Odd bytes in place of each space, and before and behind the line.
fn odd_lines() -> Vec<Vec<u8>> {
    let line = b" entails (s z) (at0 z) ft \n";
    let places = (0..line.len()).filter(|i| line[*i] == b' ');
    let with = |place: usize, odd: u8| {
        let mut copy = line.to_vec();
        copy[place] = odd;
        copy
    };
    places.flat_map(|place| ODD.map(|odd| with(place, odd))).collect()
}

/// Inputs made by hand: each answer, and each limit with the value next to it.
pub fn fixed() -> Vec<Vec<u8>> {
    let number = printer::number;
    let literal = |n: usize| format!("(at0 {})", number(n));
    let mut texts: Vec<String> = vec![
        "".into(),
        "\n".into(),
        "\nentails z ff ff\n".into(),
        "entails (s z) (at0 z) ft\n".into(),
        "entails (s z) (at0 z) ft".into(),
        "entails (s z) (at0 z) ft\nentails".into(),
        "entails z ff (at0 z)\n".into(),
        "entails (s z) ft (for (at0 z) (at1 z))\n".into(),
        "entails (s (s z)) (fand (at0 z) (at0 (s z))) (for (fand (at0 (s z)) (at1 z)) (at0 z))\n".into(),
    ];
    for n in [254, 255, 256] {
        texts.push(format!("entails {} ff ft\n", number(n)));
        texts.push(format!("entails {} {} {}\n", number(n), literal(n - 1), literal(254)));
        texts.push(format!("entails z {}", "(at0 ".to_owned() + &"(s ".repeat(n)));
    }
    for leaves in [255, 256, 257] {
        for (a, b) in
            [(constants(leaves), "ff".into()), ("ff".into(), constants(leaves)), (constants(leaves), constants(256))]
        {
            texts.push(format!("entails z {a} {b}\n"));
        }
    }
    let mut inputs: Vec<_> = texts.into_iter().map(String::into_bytes).collect();
    inputs.extend(long_lines());
    inputs.extend(odd_lines());
    inputs
}

/// A formula of either sort, up to a little above the limits.
pub fn operand(random: &mut Random, sort: Sort) -> Vec<u8> {
    let nodes = if random.chance(4) { random.between(507, 515) } else { random.size(511) };
    let dims: &[u8] = match random.below(8) {
        0 => &[],
        1 => &[0, 253, 254],
        2 if random.chance(20) => &[0, 1, 255],
        _ => &[0, 1, 2, 3, 4, 17],
    };
    let shape = *random.pick(&SHAPES);
    let t = match sort {
        Sort::Face => face(random, shape, nodes, dims),
        Sort::Interval => interval(random, shape, nodes, dims),
    };
    let mut bytes = t.bytes();
    if random.chance(15) {
        spoil_operand(&mut bytes, random);
    }
    bytes
}

/// Operands at the limits, and far longer than any formula that is let in.
pub fn fixed_operands() -> Vec<Vec<u8>> {
    let left = |kind: u8, tip: &[u8], leaves: usize| [vec![kind; leaves - 1], tip.repeat(leaves)].concat();
    let right = |kind: u8, tip: &[u8], leaves: usize| {
        let node = [&[kind][..], tip].concat();
        [node.repeat(leaves - 1), tip.to_vec()].concat()
    };
    let mut all = vec![vec![]];
    for leaves in [1, 2, 255, 256, 257, 100_000] {
        for (kind, tip) in
            [(OR, [FF].as_slice()), (AND, &[AT1, 254]), (AND, &[AT0, 255]), (20, &[16]), (21, &[18, 254])]
        {
            all.push(left(kind, tip, leaves));
            all.push(right(kind, tip, leaves));
        }
    }
    for negations in [509, 510, 511, 100_000] {
        all.push([vec![19; negations], vec![17]].concat());
        all.push([vec![19; negations], vec![18, 254]].concat());
        all.push([vec![19; negations], vec![18, 255]].concat());
        all.push(vec![19; negations]);
    }
    all.push(pair(OR, leaf(FF), at(AT1, 255)).bytes());
    all
}

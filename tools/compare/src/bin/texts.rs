//! Texts through our readers and through a model of document 01.
//! usage: texts [TEXTS] [SEED]
use compare::lent::Lent;
use compare::library;
use compare::outputs::{self, Said};
use compare::stack::on_stack;
use compare::texts::{made, model};
use judge::formula::Sort;
use judge::random::Random;
use linefeijoa::bytes::read_claim;
use std::collections::BTreeMap;
use std::process::ExitCode;

const TEXTS: u64 = 400_000;
const SEED: u64 = 1;
const MOST_DIFFERENCES: usize = 10;

#[derive(Default)]
struct Tally {
    answers: BTreeMap<(&'static str, i64), u64>,
    differences: usize,
}

impl Tally {
    /// One text read into outputs of some lengths, beside what the model says of it.
    fn read(
        &mut self,
        random: &mut Random,
        what: &'static str,
        text: &[u8],
        said: &Said,
        read: impl FnOnce(&[u8], &mut [Lent]) -> i64,
        outputs: usize,
    ) {
        let needed = |i: usize| said.as_ref().map_or(0, |(_, results)| results[i].len());
        let rooms: Vec<_> = (0..outputs).map(|i| outputs::room(random, needed(i))).collect();
        let lent = Lent::new(text);
        let asked = outputs::ask(said, &rooms, |out| read(lent.content(), out));
        let asked = asked.and_then(|_| lent.same("the text", text));
        *self.answers.entry((what, outputs::number(said, &rooms).min(0))).or_default() += 1;
        if let Err(difference) = asked {
            self.differences += 1;
            println!("DIFFERENCE reading a {what}: {difference}");
            println!("  {}", String::from_utf8_lossy(text).escape_debug());
        }
    }
    fn formula(&mut self, random: &mut Random, sort: Sort, text: &[u8]) {
        let said = outputs::one(model::formula(sort, text));
        let what = if sort == Sort::Face { "face" } else { "interval" };
        self.read(random, what, text, &said, |text, out| library::read(sort, text, out[0].slice()), 1);
    }
    fn claim(&mut self, random: &mut Random, text: &[u8]) {
        let packed = |d: usize, a: &[u8], b: &[u8]| d as i64 + ((a.len() as i64) << 16) + ((b.len() as i64) << 32);
        let said = model::claim(text).map(|(d, a, b)| (packed(d, &a, &b), vec![a, b]));
        let read = |text: &[u8], out: &mut [Lent]| {
            let (a, b) = out.split_at_mut(1);
            read_claim(text, a[0].slice(), b[0].slice())
        };
        self.read(random, "claim", text, &said, read, 2);
    }
    fn all(&mut self, random: &mut Random, text: &[u8]) {
        self.formula(random, Sort::Face, text);
        self.formula(random, Sort::Interval, text);
        self.claim(random, text);
    }
}

/// Texts at the limits, each also cut short by every token at its end.
fn fixed() -> Vec<Vec<u8>> {
    let number = |n: usize| "(s ".repeat(n) + "z" + &")".repeat(n);
    let mut texts: Vec<String> =
        vec![String::new(), " ".into(), "\n".into(), "ff".into(), "(ff)".into(), "((ff))".into(), "()".into()];
    for n in [253, 254, 255, 256] {
        texts.push(format!("(at0 {})", number(n)));
        texts.push(format!("(dim {})", number(n)));
        texts.push(format!("entails {} ff ft", number(n)));
        texts.push("(at0 ".to_owned() + &"(s ".repeat(n));
        texts.push("(at0 ".to_owned() + &"(s ".repeat(n) + "(");
        texts.push("(at0 ".to_owned() + &"(s ".repeat(n) + "s");
    }
    for leaves in [255, 256, 257] {
        for last in ["ff", "(ff)", "(at0 z)", "x", "at0", "z"] {
            texts.push("(for ff ".repeat(leaves - 1) + last + &")".repeat(leaves - 1));
            texts.push("(for ".repeat(leaves - 1) + last + &" ff)".repeat(leaves - 1));
        }
    }
    for negations in [509, 510, 511] {
        for last in ["i0", "(i0)", "(dim z)", "(neg", "neg", ")"] {
            texts.push("(neg ".repeat(negations) + last + &")".repeat(negations));
        }
    }
    texts.push("(for (at0 ".to_owned() + &number(254) + ") ".repeat(1).as_str() + "ff)");
    texts.push(format!(
        "{} {0} {}",
        "(for ".repeat(255),
        format!("(at1 {}) ", number(254)).repeat(256) + &")".repeat(255)
    ));
    texts.push(
        "(for ".repeat(255) + &format!("(at1 {})", number(254)) + &format!(" (at1 {}))", number(254)).repeat(255),
    );
    texts.push("(".repeat(100_000));
    texts.push("f".repeat(1_000_000));
    texts.push(" ".repeat(1_000_000) + "ff");
    texts.into_iter().map(String::into_bytes).collect()
}

fn main() -> ExitCode {
    let mut words = std::env::args().skip(1).map(|w| w.parse().expect("usage: texts [TEXTS] [SEED]"));
    let (count, seed) = (words.next().unwrap_or(TEXTS), words.next().unwrap_or(SEED));
    // A stack of 1 MiB has to do for every text.
    let work = move || {
        let mut tally = Tally::default();
        let mut random = Random::new(seed);
        fixed().iter().for_each(|text| tally.all(&mut random, text));
        for i in 0..count {
            let text = match i % 4 {
                0 => made::formula_text(&mut random, Sort::Face),
                1 => made::formula_text(&mut random, Sort::Interval),
                2 => {
                    let most = if random.chance(20) { 515 } else { 40 };
                    made::claim_text(&mut random, most)
                }
                _ => made::soup(&mut random),
            };
            let text = if i % 3 == 0 { text } else { made::damaged(&mut random, &text) };
            tally.all(&mut random, &text);
            if tally.differences >= MOST_DIFFERENCES {
                break;
            }
        }
        tally
    };
    let tally = on_stack(1 << 20, "texts", work);
    for ((what, answer), n) in &tally.answers {
        let said = if *answer == 0 { "read".into() } else { format!("refused {}", -answer) };
        println!("{what}, {said}: {n}");
    }
    let total: u64 = tally.answers.values().sum();
    println!("{total} texts read, differences: {}", tally.differences);
    if tally.differences == 0 { ExitCode::SUCCESS } else { ExitCode::FAILURE }
}

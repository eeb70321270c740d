//! The steps of a ledger, read.
use crate::limits::{KIND_ENTAILS, MAX_KIND};
use crate::{Claim, Rule, Step, bytes, grown};
use std::fmt;
use std::iter::FusedIterator;

/// One step of a ledger as it stands there: its number, its rule, the steps that it refers to, its judgement.
///
/// [`Display`](fmt::Display) prints its line as in a listing, without byte 10. A ledger that the
/// [`desk`](crate::Ledger::desk) did not pass may hold any judgement.
///
/// ```
/// use linefeijoa::{Ledger, Refusal};
///
/// let mut ledger = Ledger::new(2_048)?;
/// let step = ledger.ask(&"entails (s z) (at0 z) ft".parse()?)?;
/// let record = ledger.get(step).expect("a call's step is in the ledger");
/// assert_eq!(record.rule().name(), "entails.checked");
/// assert_eq!(record.references().map(|s| s.number()).collect::<Vec<_>>(), [2, 3, 4]);
/// assert_eq!(record.judgement(), "(entails (s z) (at0 z) ft)");
/// assert_eq!(record.to_string(), "5 entails.checked [2,3,4] (entails (s z) (at0 z) ft)");
/// # Ok::<(), Refusal>(())
/// ```
#[derive(Clone, Copy, PartialEq, Eq, Debug)]
pub struct Record<'a> {
    step: Step,
    rule: Rule,
    /// Four bytes each.
    references: &'a [u8],
    operands: &'a [u8],
}

impl<'a> Record<'a> {
    /// Its number.
    pub fn step(&self) -> Step {
        self.step
    }

    /// Its rule, which is its kind and name.
    pub fn rule(&self) -> Rule {
        self.rule
    }

    /// The steps that it refers to, in order, each below its own number.
    pub fn references(&self) -> impl ExactSizeIterator<Item = Step> + use<'a> {
        self.references.chunks_exact(4).map(|bytes| Step::new(little(bytes) as u32))
    }

    /// The bytes of its judgement: the operands in printed order, a part of the ledger.
    pub fn operands(&self) -> &'a [u8] {
        self.operands
    }

    /// The text of its judgement, by the proved writer of lines.
    pub fn judgement(&self) -> String {
        judgement(self.rule.kind(), self.references.len() / 4, self.operands)
    }

    /// The claim that its judgement is, where it is an entails.
    pub fn claim(&self) -> Option<Claim> {
        let text = (self.rule == Rule::ENTAILS_CHECKED).then(|| self.judgement())?;
        Some(Claim::from_text(inside(&text)).expect("the judgement of an entails step is a claim"))
    }

    /// The step of a number in a well-formed ledger, by the library's look-ups.
    pub(crate) fn look_up(ledger: &'a [u8], step: Step) -> Option<Self> {
        let number = step.number().into();
        let rule = Rule::of_kind(bytes::kind(ledger, number) as u64)?;
        let operands = bytes::part_of(bytes::operands(ledger, number));
        let count = (0..).take_while(|i| bytes::reference(ledger, number, *i) != 0).count();
        let references = &ledger[operands.start - 4 * count..operands.start];
        Some(Self { step, rule, references, operands: &ledger[operands] })
    }
}

/// The step's line without byte 10.
impl fmt::Display for Record<'_> {
    fn fmt(&self, f: &mut fmt::Formatter<'_>) -> fmt::Result {
        let references: Vec<_> = self.references().map(|step| step.to_string()).collect();
        write!(f, "{} {} [{}] {}", self.step, self.rule, references.join(","), self.judgement())
    }
}

/// The steps of a ledger in order, in one pass over its bytes.
#[derive(Clone, Debug)]
pub struct Steps<'a> {
    ledger: &'a [u8],
    /// Where the next record begins, and how many come.
    at: usize,
    next: u32,
    left: u32,
    /// How many references the kinds have, as far as they were met.
    references: [Option<usize>; MAX_KIND as usize + 1],
}

impl<'a> Steps<'a> {
    /// Of a ledger that is well formed.
    pub(crate) fn of(ledger: &'a [u8], count: u32) -> Self {
        Self { ledger, at: 4, next: 0, left: count, references: [None; MAX_KIND as usize + 1] }
    }
}

impl<'a> Iterator for Steps<'a> {
    type Item = Record<'a>;

    fn next(&mut self) -> Option<Record<'a>> {
        self.left = self.left.checked_sub(1)?;
        let (step, from) = (Step::new(self.next), self.at + 6);
        // A record: four bytes of length (of what follows), a two-byte kind, references, operands.
        let end = self.at + 4 + little(&self.ledger[self.at..self.at + 4]);
        let kind = little(&self.ledger[self.at + 4..from]);
        // The library is asked once for each kind: a question takes a pass over the ledger.
        let references = *self.references[kind].get_or_insert_with(|| {
            let operands = bytes::part_of(bytes::operands(self.ledger, step.number().into()));
            operands.start - from
        });
        let rule = Rule::of_kind(kind as u64).expect("a ledger has known kinds");
        (self.at, self.next) = (end, self.next + 1);
        let (references, operands) = self.ledger[from..end].split_at(references);
        Some(Record { step, rule, references, operands })
    }

    fn size_hint(&self) -> (usize, Option<usize>) {
        (self.left as usize, Some(self.left as usize))
    }
}

impl ExactSizeIterator for Steps<'_> {}
impl FusedIterator for Steps<'_> {}

/// A little-endian number.
fn little(bytes: &[u8]) -> usize {
    bytes.iter().rev().fold(0, |n, byte| 256 * n + usize::from(*byte))
}

/// The text of a judgement, by the library's writer of lines: the step is put into a ledger of its own, behind one other
/// that its references name, so that the time does not depend on the ledger that it is from.
pub(crate) fn judgement(kind: u8, references: usize, operands: &[u8]) -> String {
    const OTHER: [u8; 8] = [4, 0, 0, 0, 1, 0, 0, 1];
    let body = 2 + 4 * references + operands.len();
    let mut ledger = ((OTHER.len() + 4 + body) as u32).to_le_bytes().to_vec();
    ledger.extend(OTHER);
    ledger.extend((body as u32).to_le_bytes());
    ledger.extend([kind, 0]);
    ledger.extend(std::iter::repeat_n(0, 4 * references));
    ledger.extend(operands);
    let line = grown::text(16 * ledger.len(), |out| bytes::write_step(&ledger, 1, out)).expect("a well-formed ledger");
    // `1 RULE [0,0] JUDGEMENT` and byte 10; no name has a bracket.
    let (_, judgement) = line.split_once("] ").expect("references stand in brackets");
    judgement.trim_end().to_owned()
}

/// The text of an entails judgement without its parentheses, which is that of the claim.
pub(crate) fn inside(judgement: &str) -> &str {
    &judgement[1..judgement.len() - 1]
}

const _: () = assert!(KIND_ENTAILS <= MAX_KIND);

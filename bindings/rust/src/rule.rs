//! The rules, by their kinds.
use crate::limits::{KIND_ENTAILS, MAX_KIND, MAX_NAME_BYTES};
use crate::{bytes, grown};
use std::fmt;
use std::sync::OnceLock;

/// One of document 01's 75 rules: the kind of a step.
///
/// ```
/// use linefeijoa::Rule;
///
/// let rule = Rule::named("cover.or-right0").expect("document 01 has it");
/// assert_eq!(rule.kind(), 28);
/// assert_eq!(Rule::of_kind(30), Some(Rule::ENTAILS_CHECKED));
/// assert_eq!(Rule::of_kind(76), None);
/// ```
#[derive(Clone, Copy, PartialEq, Eq, PartialOrd, Ord, Hash)]
pub struct Rule(u8);

impl Rule {
    /// The rule of every entails judgement.
    pub const ENTAILS_CHECKED: Self = Self(KIND_ENTAILS);

    /// The rule of a kind, 1 to 75.
    pub fn of_kind(kind: u64) -> Option<Self> {
        (1..=u64::from(MAX_KIND)).contains(&kind).then_some(Self(kind as u8))
    }

    /// The rule of a name.
    pub fn named(name: &str) -> Option<Self> {
        Self::all().find(|rule| rule.name() == name)
    }

    /// All rules, in document 01's order.
    pub fn all() -> impl Iterator<Item = Self> {
        (1..=MAX_KIND).map(Self)
    }

    /// The kind, 1 to 75.
    pub fn kind(self) -> u8 {
        self.0
    }

    /// The name, as in listings.
    pub fn name(self) -> &'static str {
        static NAMES: OnceLock<Vec<String>> = OnceLock::new();
        let name = |kind: u8| grown::text(MAX_NAME_BYTES, |out| bytes::rule_name(kind.into(), out));
        let names =
            NAMES.get_or_init(|| (0..=MAX_KIND).map(|kind| name(kind).expect("6 is met by more room")).collect());
        &names[usize::from(self.0)]
    }
}

impl fmt::Display for Rule {
    fn fmt(&self, f: &mut fmt::Formatter<'_>) -> fmt::Result {
        f.pad(self.name())
    }
}

impl fmt::Debug for Rule {
    fn fmt(&self, f: &mut fmt::Formatter<'_>) -> fmt::Result {
        write!(f, "Rule({})", self.name())
    }
}

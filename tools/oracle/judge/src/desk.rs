//! Whether each step follows by its rule as document 01 words it. The Rust
//! does not check itself; this says that its steps are the document's.
use crate::ledger::{Step, shape};
use crate::rules;
use published::cubical::engine::term::{FastMap, Sexp};

/// Cuts text into its words and parenthesised expressions.
pub fn expressions(text: &str) -> Vec<&str> {
    let (mut out, mut depth, mut start) = (vec![], 0, 0);
    for (i, c) in text.char_indices() {
        match c {
            '(' => depth += 1,
            ')' => depth -= 1,
            ' ' if depth == 0 => {
                out.push(&text[start..i]);
                start = i + 1;
            }
            _ => {}
        }
    }
    out.push(&text[start..]);
    out
}

enum Pattern {
    Variable(usize),
    Node(String, Vec<Pattern>),
}

/// A rule's variables by their place in its list of names.
fn pattern(text: &str, names: &mut Vec<String>) -> Pattern {
    if let Some(name) = text.strip_prefix('?') {
        let known = names.iter().position(|n| n == name);
        return Pattern::Variable(known.unwrap_or_else(|| {
            names.push(name.to_owned());
            names.len() - 1
        }));
    }
    let inner = text.strip_prefix('(').and_then(|t| t.strip_suffix(')'));
    let words = expressions(inner.unwrap_or(text));
    let parts = words[1..].iter().map(|w| pattern(w, names)).collect();
    Pattern::Node(words[0].to_owned(), parts)
}

/// The conclusion's pattern and the references' patterns of one rule.
struct Row {
    conclusion: Pattern,
    references: Vec<Pattern>,
}

fn row(text: &str) -> Row {
    let mut names = vec![];
    let mut patterns = expressions(text)[1..].iter().map(|e| pattern(e, &mut names)).collect::<Vec<_>>();
    let conclusion = patterns.remove(0);
    Row { conclusion, references: patterns }
}

type Bound = [Option<Sexp>; 8];

fn matches(p: &Pattern, s: &Sexp, bound: &mut Bound) -> bool {
    match p {
        Pattern::Variable(v) => *bound[*v].get_or_insert_with(|| s.clone()) == *s,
        Pattern::Node(head, parts) => {
            let (h, xs) = shape(s);
            h == head && xs.len() == parts.len() && parts.iter().zip(xs).all(|(p, x)| matches(p, x, bound))
        }
    }
}

pub struct Desk(FastMap<&'static str, Row>);

impl Default for Desk {
    fn default() -> Self {
        Self((1..=rules::RULES.len()).map(|k| (rules::name(k), row(rules::RULES[k - 1]))).collect())
    }
}

impl Desk {
    fn follows(&self, steps: &[Step], own: usize) -> bool {
        let (rule, refs, judgement) = &steps[own];
        let Some(row) = self.0.get(rule.as_str()) else { return false };
        let mut bound = Bound::default();
        refs.len() == row.references.len()
            && matches(&row.conclusion, judgement, &mut bound)
            && row.references.iter().zip(refs).all(|(p, r)| *r < own && matches(p, &steps[*r].2, &mut bound))
    }
    /// The lowest step that does not follow, if there is one.
    pub fn first_failing(&self, steps: &[Step]) -> Option<usize> {
        (0..steps.len()).find(|&own| !self.follows(steps, own))
    }
}

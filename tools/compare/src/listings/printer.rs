//! Document 01's printer: one space between items, atoms bare.
use judge::formula::{HEADS, Tree, has_dimension};
use judge::ledger::Step;
use published::cubical::engine::term::Sexp;

/// The Rust's expression, whose lists hold their items in printed order.
pub fn expression(s: &Sexp, out: &mut Vec<u8>) {
    match s {
        Sexp::Atom(a) => out.extend(a.bytes()),
        Sexp::List(items) => {
            out.push(b'(');
            for (i, item) in items.iter().enumerate() {
                if i > 0 {
                    out.push(b' ');
                }
                expression(item, out);
            }
            out.push(b')');
        }
    }
}

/// A number, unary.
pub fn number(n: usize) -> String {
    "(s ".repeat(n) + "z" + &")".repeat(n)
}

/// A formula of our own.
pub fn formula(t: &Tree, out: &mut Vec<u8>) {
    let head = HEADS.iter().find(|(kind, _)| *kind == t.kind).unwrap().1.as_bytes();
    if t.parts.is_empty() && !has_dimension(t.kind) {
        return out.extend(head);
    }
    out.push(b'(');
    out.extend(head);
    if has_dimension(t.kind) {
        out.push(b' ');
        out.extend(number(usize::from(t.dim)).into_bytes());
    }
    for part in &t.parts {
        out.push(b' ');
        formula(part, out);
    }
    out.push(b')');
}

/// One line: number, rule, references, judgement.
pub fn step(number: usize, (rule, references, judgement): &Step, out: &mut Vec<u8>) {
    let references: Vec<_> = references.iter().map(usize::to_string).collect();
    out.extend(format!("{number} {rule} [{}] ", references.join(",")).bytes());
    expression(judgement, out);
    out.push(b'\n');
}

/// The lines of steps, each by itself.
pub fn lines(steps: &[Step]) -> Vec<Vec<u8>> {
    let line = |(i, s)| {
        let mut out = vec![];
        step(i, s, &mut out);
        out
    };
    steps.iter().enumerate().map(line).collect()
}

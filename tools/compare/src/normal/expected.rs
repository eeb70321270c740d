//! What `lf_normal` should answer: the door of `tools/oracle`, the published `Face::normal`, and document 01's limits.
use crate::admitted::admitted;
use crate::normal::copied::{self, MOST_CLAUSES, Watch};
use crate::outputs::{Said, one};
use judge::formula::{AND, AT0, AT1, FF, FT, OR, Sort, has_dimension};
use judge::ledger::MOST_NODES;
use judge::session::rust_face;
use published::cubical::engine::face_frontend::Face;

pub const LENGTH: &str = "length";
pub const ILL: &str = "2";
pub const NODES: &str = "3";
pub const DIMENSION: &str = "4";
pub const RESULT: &str = "5 by result";
pub const CLAUSES: &str = "5 by clauses";
pub const SHORT: &str = "6";
pub const ANSWERS: [&str; 7] = [LENGTH, ILL, NODES, DIMENSION, RESULT, CLAUSES, SHORT];

/// The answer, why it is so, and what was seen on the way.
pub struct Expected {
    pub said: Said,
    pub reason: &'static str,
    /// The operand's nodes, 0 where it is no face.
    pub nodes: usize,
    pub watch: Watch,
    /// The nodes of the Rust's normal form; None where it was not asked.
    pub result: Option<usize>,
    /// Whether the copy of the published function said something else than the function itself.
    pub copy_differs: bool,
}

/// The Rust's face as bytes.
fn write(f: &Face, out: &mut Vec<u8>) {
    match f {
        Face::False => out.push(FF),
        Face::True => out.push(FT),
        Face::End(n, b) => {
            out.extend([if *b { AT1 } else { AT0 }, u8::try_from(*n).expect("a dimension of the input")])
        }
        Face::And(a, b) | Face::Or(a, b) => {
            out.push(if matches!(f, Face::And(..)) { AND } else { OR });
            write(a, out);
            write(b, out);
        }
    }
}

pub fn bytes(f: &Face) -> Vec<u8> {
    let mut out = vec![];
    write(f, &mut out);
    out
}

/// The nodes of a formula's bytes.
pub fn count_nodes(bytes: &[u8]) -> usize {
    let (mut count, mut at) = (0, 0);
    while at < bytes.len() {
        at += 1 + usize::from(has_dimension(bytes[at]));
        count += 1;
    }
    count
}

fn refused(question: u8, nodes: usize) -> Expected {
    let reason = ANSWERS[usize::from(question) - 1];
    Expected { said: Err(question), reason, nodes, watch: Watch::default(), result: None, copy_differs: false }
}

/// Both the copy and the published function; 5 by clauses, then by the result.
fn normal(f: &Face, nodes: usize) -> Expected {
    let (copy, watch) = copied::normal(f);
    let Some(copy) = copy else {
        return Expected { watch, reason: CLAUSES, ..refused(5, nodes) };
    };
    let published = f.normal();
    let (normal, copy_differs) = (bytes(&published), copy != published);
    let result = count_nodes(&normal);
    let (said, reason) = if watch.longest() > MOST_CLAUSES {
        (Err(5), CLAUSES)
    } else if result > MOST_NODES {
        (Err(5), RESULT)
    } else {
        (one(Ok(normal)), LENGTH)
    };
    Expected { said, reason, nodes, watch, result: Some(result), copy_differs }
}

pub fn expected(operand: &[u8]) -> Expected {
    match admitted(Sort::Face, operand) {
        Err(2) => refused(2, 0),
        Err(question) => refused(question, count_nodes(operand)),
        Ok(tree) => normal(&rust_face(&tree), count_nodes(operand)),
    }
}

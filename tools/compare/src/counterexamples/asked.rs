//! Our library asked, every lent byte compared.
use crate::counterexamples::model::{Expected, Question};
use crate::lent::Lent;
use linefeijoa::bytes::counterexample;

/// Asks with an output that is filled beforehand; what differs.
pub fn ask(question: &Question, want: &Expected) -> Result<(), String> {
    let &Question { d, a, b, room } = question;
    let (x, y, mut out) = (Lent::new(a), Lent::new(b), Lent::pattern(room, room));
    let mut after = out.content().to_vec();
    let number = match want {
        Ok(at) => {
            after[..at.len()].copy_from_slice(at);
            at.len() as i64
        }
        Err(refusal) => -i64::from(*refusal),
    };
    let answered = counterexample(d, x.content(), y.content(), out.slice());
    if answered != number {
        return Err(format!("answered {answered}, expected {number}, an output of {room} bytes"));
    }
    out.same("the output", &after)?;
    x.same("a", a)?;
    y.same("b", b)
}

//! Questions 2 to 4 of one operand, by the oracle's door.
use judge::call::{Call, Name};
use judge::door;
use judge::formula::{Sort, Tree};

/// The formula that is let in, or the question that refuses it.
pub fn admitted(sort: Sort, operand: &[u8]) -> Result<Tree, u8> {
    let name = if sort == Sort::Face { Name::Face } else { Name::Interval };
    let call = Call { operands: vec![operand.to_vec()], ..Call::new(name, 0, &[]) };
    let seen = door::admit(&call).map_err(|question| question as u8)?;
    Ok(seen.operands.into_iter().next().expect("one operand"))
}

//! The producer's limits: the published functions behind the oracle's door, and formulas about depth 32 and dimension 32.
pub mod comparison;
pub mod expected;
pub mod limits;
pub mod made;
pub mod parts;
pub mod seen;

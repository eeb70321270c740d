//! Looking steps up: what the oracle's own reader finds in a ledger, and the questions.
pub mod asked;
pub mod made;
pub mod model;

//! The normal form: the published function with its lists watched, faces at the limits, the slowest and random ones.
pub mod comparison;
pub mod copied;
pub mod expected;
pub mod limits;
pub mod made;
pub mod parts;
pub mod worst;

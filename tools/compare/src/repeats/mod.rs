//! The repeat test: document 01's sentence as a model, and ledgers to compare in pairs.
pub mod made;
pub mod model;

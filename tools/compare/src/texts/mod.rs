//! Texts: a model of the reader, and texts to read.
pub mod made;
pub mod model;

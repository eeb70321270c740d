//! Counterexamples: every assignment tried in its order, questions that several refusals concern, and faces to ask about.
pub mod asked;
pub mod broken;
pub mod made;
pub mod model;

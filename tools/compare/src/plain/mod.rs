//! The calls over a plain list of steps: the judge where the published Rust can't hold a ledger, because a judgement stands twice
//! in it, and where its search would not end. Written after document 01 and the Rust's own methods, with the oracle's door, table
//! of rules and operations on trees, so it is no second opinion on these. See README.md.
pub mod calls;
pub mod search;
pub mod steps;

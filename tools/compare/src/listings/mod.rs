//! Listings: document 01's printer, what `facesteps` prints, and lines and ledgers to list.
pub mod asked;
pub mod comparison;
pub mod facesteps;
pub mod ledgers;
pub mod made;
pub mod printer;
pub mod smaller;

//! Our library in a process of its own, so that a call that takes too long can be given up: see tools/bench/README.md.
pub mod depth;
pub mod watch;
pub mod worker;

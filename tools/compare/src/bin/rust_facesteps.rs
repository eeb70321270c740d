//! What `facesteps` should print for its standard input: the steps of the published Rust.
use compare::listings::facesteps;
use judge::session::fresh;
use std::io::{Read, Write, stdin, stdout};

fn main() {
    let mut input = vec![];
    stdin().read_to_end(&mut input).expect("standard input");
    let printed = fresh(|| facesteps::printed(&input)).expect("a search that the Rust ends soon");
    stdout().write_all(&printed).expect("standard output");
}

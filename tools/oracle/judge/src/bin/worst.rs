//! Prints the worst cases; a program of its own because its allocator watches.
use judge::watch::Watch;

#[global_allocator]
static WATCH: Watch = Watch;

fn main() {
    match std::env::args().nth(1).as_deref() {
        Some("deep") => judge::worst::deep(),
        _ => judge::worst::print(),
    }
}

//! Threads of a given stack, in which our library runs.

/// Runs on a thread of so many bytes of stack; its name says what was asked if the stack runs out.
pub fn on_stack<T: Send>(bytes: usize, name: &str, work: impl FnOnce() -> T + Send) -> T {
    std::thread::scope(|scope| {
        let thread = std::thread::Builder::new().name(name.to_owned()).stack_size(bytes);
        let asked = thread.spawn_scoped(scope, work).expect("a thread");
        asked.join().unwrap_or_else(|panic| std::panic::resume_unwind(panic))
    })
}

//! An allocator that notes how deep the stack is at each request and how much
//! memory is held: the published code is measured without changing it.
use std::alloc::{GlobalAlloc, Layout, System};
use std::sync::atomic::{AtomicUsize, Ordering::Relaxed};

pub struct Watch;

static LOWEST: AtomicUsize = AtomicUsize::new(usize::MAX);
static HELD: AtomicUsize = AtomicUsize::new(0);
static PEAK: AtomicUsize = AtomicUsize::new(0);

fn note_stack() {
    let here = 0_u8;
    LOWEST.fetch_min(&raw const here as usize, Relaxed);
}

// SAFETY: every request goes to the system's allocator unchanged.
unsafe impl GlobalAlloc for Watch {
    unsafe fn alloc(&self, layout: Layout) -> *mut u8 {
        note_stack();
        let held = HELD.fetch_add(layout.size(), Relaxed) + layout.size();
        PEAK.fetch_max(held, Relaxed);
        unsafe { System.alloc(layout) }
    }
    unsafe fn dealloc(&self, place: *mut u8, layout: Layout) {
        note_stack();
        HELD.fetch_sub(layout.size(), Relaxed);
        unsafe { System.dealloc(place, layout) }
    }
}

/// What a run used: bytes of stack below the caller, bytes of memory above
/// what was held before.
#[derive(Clone, Copy, Default, Debug)]
pub struct Used {
    pub stack: usize,
    pub memory: usize,
}

/// Measures one run on this thread; nothing else may run meanwhile.
pub fn measured<T>(work: impl FnOnce() -> T) -> (T, Used) {
    let here = 0_u8;
    let top = &raw const here as usize;
    let held = HELD.load(Relaxed);
    LOWEST.store(usize::MAX, Relaxed);
    PEAK.store(held, Relaxed);
    let out = work();
    let stack = top.saturating_sub(LOWEST.load(Relaxed));
    (out, Used { stack, memory: PEAK.load(Relaxed) - held })
}

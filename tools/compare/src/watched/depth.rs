//! How deep a call goes: it runs on a stack of our own that was filled with a pattern, and what is no longer as it was has been
//! written. Room that a call reserves below that and does not write is not seen.
use std::ffi::{c_int, c_ulong, c_void};
use std::ptr;

/// More than any call should take.
const SIZE: usize = 16 << 20;
/// The lowest bytes, which no call may come near to.
const MARGIN: usize = 64 << 10;
const PATTERN: u8 = 0xa7;
const PAGE: usize = 4096;

/// At least as large as C's own, which has 56 bytes here.
type Attributes = [u64; 16];
type Start = extern "C" fn(*mut c_void) -> *mut c_void;

unsafe extern "C" {
    fn pthread_attr_init(attributes: *mut Attributes) -> c_int;
    fn pthread_attr_setstack(attributes: *mut Attributes, lowest: *mut c_void, size: usize) -> c_int;
    fn pthread_attr_destroy(attributes: *mut Attributes) -> c_int;
    fn pthread_create(
        thread: *mut c_ulong,
        attributes: *const Attributes,
        start: Start,
        argument: *mut c_void,
    ) -> c_int;
    fn pthread_join(thread: c_ulong, result: *mut *mut c_void) -> c_int;
}

/// What the thread does, and where its first frame is.
struct Task<'a> {
    work: &'a mut dyn FnMut(),
    top: usize,
}

extern "C" fn start(argument: *mut c_void) -> *mut c_void {
    let here = 0_u8;
    // SAFETY: the caller's task lives until this thread is joined, and nobody else has it meanwhile.
    let task = unsafe { &mut *argument.cast::<Task>() };
    task.top = &raw const here as usize;
    (task.work)();
    ptr::null_mut()
}

/// Runs a thread to its end on this stack, which starts at a page and is a number of pages.
fn run_on(stack: &mut [u8], task: &mut Task) {
    let (mut attributes, mut thread) = ([0; 16], 0);
    let good = |code: c_int| assert_eq!(code, 0, "a thread with a stack of our own");
    // SAFETY: as C's manual has it; the thread ends before the stack and the task do.
    unsafe {
        good(pthread_attr_init(&mut attributes));
        good(pthread_attr_setstack(&mut attributes, stack.as_mut_ptr().cast(), stack.len()));
        good(pthread_create(&mut thread, &attributes, start, ptr::from_mut(task).cast()));
        good(pthread_join(thread, ptr::null_mut()));
        good(pthread_attr_destroy(&mut attributes));
    }
}

/// A stack that is filled anew for each run.
pub struct Stack(Vec<u8>);

impl Default for Stack {
    fn default() -> Self {
        Self(vec![0; SIZE + PAGE])
    }
}

impl Stack {
    /// How many bytes below the thread's first frame were written.
    pub fn touched(&mut self, mut work: impl FnMut()) -> usize {
        self.0.fill(PATTERN);
        let from = self.0.as_ptr().align_offset(PAGE);
        let stack = &mut self.0[from..from + SIZE];
        let mut task = Task { work: &mut work, top: 0 };
        run_on(stack, &mut task);
        let lowest = stack.iter().position(|b| *b != PATTERN).expect("a thread writes its stack");
        assert!(lowest > MARGIN, "the stack of {SIZE} bytes was too small");
        task.top - (stack.as_ptr() as usize + lowest)
    }
}

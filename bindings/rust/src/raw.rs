//! The library's functions as C sees them, declared once, and each as a safe function over slices.
//!
//! Why the latter are safe: each pointer and length are those of a slice that lives through the call; what is written is
//! lent by `&mut`, so it overlaps nothing else that is lent; the library reads and writes nothing else, keeps no
//! pointer, and is proved to be total (README.md, crate `exports`). It touches its stack page by page, so a stack that
//! is too small ends the process at the guard page.

unsafe extern "C" {
    fn lf_well_formed(ledger: *const u8, ledger_len: usize) -> i64;
    fn lf_step_desk(ledger: *const u8, ledger_len: usize) -> i64;
    fn lf_repeats(l: *const u8, l_len: usize, m: *const u8, m_len: usize) -> i64;
    fn lf_face(ledger: *mut u8, ledger_len: usize, d: u64, f: *const u8, f_len: usize) -> i64;
    fn lf_interval(ledger: *mut u8, ledger_len: usize, d: u64, r: *const u8, r_len: usize) -> i64;
    fn lf_boundary(
        ledger: *mut u8,
        ledger_len: usize,
        r: *const u8,
        r_len: usize,
        out0: *mut u8,
        out0_len: usize,
        out1: *mut u8,
        out1_len: usize,
    ) -> i64;
    fn lf_endpoint(
        ledger: *mut u8,
        ledger_len: usize,
        d: u64,
        phi: *const u8,
        phi_len: usize,
        r: *const u8,
        r_len: usize,
        one: u64,
    ) -> i64;
    fn lf_forall(
        ledger: *mut u8,
        ledger_len: usize,
        f: *const u8,
        f_len: usize,
        k: u64,
        out: *mut u8,
        out_len: usize,
    ) -> i64;
    fn lf_shift_face(
        ledger: *mut u8,
        ledger_len: usize,
        t: *const u8,
        t_len: usize,
        k: u64,
        out: *mut u8,
        out_len: usize,
    ) -> i64;
    fn lf_shift_interval(
        ledger: *mut u8,
        ledger_len: usize,
        t: *const u8,
        t_len: usize,
        k: u64,
        out: *mut u8,
        out_len: usize,
    ) -> i64;
    fn lf_substitute_face(
        ledger: *mut u8,
        ledger_len: usize,
        t: *const u8,
        t_len: usize,
        k: u64,
        r: *const u8,
        r_len: usize,
        out: *mut u8,
        out_len: usize,
    ) -> i64;
    fn lf_substitute_interval(
        ledger: *mut u8,
        ledger_len: usize,
        t: *const u8,
        t_len: usize,
        k: u64,
        r: *const u8,
        r_len: usize,
        out: *mut u8,
        out_len: usize,
    ) -> i64;
    fn lf_entails(
        ledger: *mut u8,
        ledger_len: usize,
        d: u64,
        a: *const u8,
        a_len: usize,
        b: *const u8,
        b_len: usize,
    ) -> i64;
    fn lf_counterexample(
        d: u64,
        a: *const u8,
        a_len: usize,
        b: *const u8,
        b_len: usize,
        out: *mut u8,
        out_len: usize,
    ) -> i64;
    fn lf_fence_face(f: *const u8, f_len: usize) -> i64;
    fn lf_fence_interval(r: *const u8, r_len: usize) -> i64;
    fn lf_read_face(source: *const u8, source_len: usize, out: *mut u8, out_len: usize) -> i64;
    fn lf_read_interval(source: *const u8, source_len: usize, out: *mut u8, out_len: usize) -> i64;
    fn lf_read_claim(source: *const u8, source_len: usize, a: *mut u8, a_len: usize, b: *mut u8, b_len: usize) -> i64;
    fn lf_write_face(f: *const u8, f_len: usize, out: *mut u8, out_len: usize) -> i64;
    fn lf_write_interval(r: *const u8, r_len: usize, out: *mut u8, out_len: usize) -> i64;
    fn lf_normal(f: *const u8, f_len: usize, out: *mut u8, out_len: usize) -> i64;
    fn lf_write_step(ledger: *const u8, ledger_len: usize, step: u64, out: *mut u8, out_len: usize) -> i64;
    fn lf_operands(ledger: *const u8, ledger_len: usize, step: u64) -> i64;
    fn lf_kind(ledger: *const u8, ledger_len: usize, step: u64) -> i64;
    fn lf_reference(ledger: *const u8, ledger_len: usize, step: u64, i: u64) -> i64;
    fn lf_rule_name(kind: u64, out: *mut u8, out_len: usize) -> i64;
    fn lf_facesteps(input: *const u8, input_len: usize, out: *mut u8, out_len: usize) -> i64;
}

/// How many steps the ledger has, or -1.
#[inline]
pub fn well_formed(ledger: &[u8]) -> i64 {
    // SAFETY: here and below: the pointers and lengths of slices, as the module says.
    unsafe { lf_well_formed(ledger.as_ptr(), ledger.len()) }
}

/// The step desk: how many steps there are, -1, or -(10 + 16 n) where step n is the lowest that does not follow.
#[inline]
pub fn step_desk(ledger: &[u8]) -> i64 {
    unsafe { lf_step_desk(ledger.as_ptr(), ledger.len()) }
}

/// 1 where both ledgers end in an entails step with equal operand bytes, else 0, or -1.
#[inline]
pub fn repeats(l: &[u8], m: &[u8]) -> i64 {
    unsafe { lf_repeats(l.as_ptr(), l.len(), m.as_ptr(), m.len()) }
}

/// The step that all dimensions of the face f are below d. Refused by 1, 2, 3, 4, 7, 8.
#[inline]
pub fn face(ledger: &mut [u8], d: u64, f: &[u8]) -> i64 {
    unsafe { lf_face(ledger.as_mut_ptr(), ledger.len(), d, f.as_ptr(), f.len()) }
}

/// The step that all dimensions of the interval r are below d. Refused by 1, 2, 3, 4, 7, 8.
#[inline]
pub fn interval(ledger: &mut [u8], d: u64, r: &[u8]) -> i64 {
    unsafe { lf_interval(ledger.as_mut_ptr(), ledger.len(), d, r.as_ptr(), r.len()) }
}

/// The step of the boundary of the interval r, and 2^32 times the length of the face in front of each output.
/// Refused by 1, 2, 3, 4, 6, 7.
#[inline]
pub fn boundary(ledger: &mut [u8], r: &[u8], out0: &mut [u8], out1: &mut [u8]) -> i64 {
    unsafe {
        lf_boundary(
            ledger.as_mut_ptr(),
            ledger.len(),
            r.as_ptr(),
            r.len(),
            out0.as_mut_ptr(),
            out0.len(),
            out1.as_mut_ptr(),
            out1.len(),
        )
    }
}

/// The step that the interval r is zero (one is 0) or one (one is anything else) wherever the face phi holds.
/// Refused by 1, 2, 3, 4, 7, 8, 9.
#[inline]
pub fn endpoint(ledger: &mut [u8], d: u64, phi: &[u8], r: &[u8], one: u64) -> i64 {
    unsafe { lf_endpoint(ledger.as_mut_ptr(), ledger.len(), d, phi.as_ptr(), phi.len(), r.as_ptr(), r.len(), one) }
}

/// The step of the face f for all k, and 2^32 times the length of the result. Refused by 1, 2, 3, 4, 6, 7.
#[inline]
pub fn forall(ledger: &mut [u8], f: &[u8], k: u64, out: &mut [u8]) -> i64 {
    unsafe { lf_forall(ledger.as_mut_ptr(), ledger.len(), f.as_ptr(), f.len(), k, out.as_mut_ptr(), out.len()) }
}

/// The step of the face t shifted at k, and 2^32 times the length of the result. Refused by 1 to 7.
#[inline]
pub fn shift_face(ledger: &mut [u8], t: &[u8], k: u64, out: &mut [u8]) -> i64 {
    unsafe { lf_shift_face(ledger.as_mut_ptr(), ledger.len(), t.as_ptr(), t.len(), k, out.as_mut_ptr(), out.len()) }
}

/// The step of the interval t shifted at k, and 2^32 times the length of the result. Refused by 1 to 7.
#[inline]
pub fn shift_interval(ledger: &mut [u8], t: &[u8], k: u64, out: &mut [u8]) -> i64 {
    unsafe { lf_shift_interval(ledger.as_mut_ptr(), ledger.len(), t.as_ptr(), t.len(), k, out.as_mut_ptr(), out.len()) }
}

/// The step of the face t with the interval r for dimension k, and 2^32 times the length of the result.
/// Refused by 1 to 7.
#[inline]
pub fn substitute_face(ledger: &mut [u8], t: &[u8], k: u64, r: &[u8], out: &mut [u8]) -> i64 {
    unsafe {
        lf_substitute_face(
            ledger.as_mut_ptr(),
            ledger.len(),
            t.as_ptr(),
            t.len(),
            k,
            r.as_ptr(),
            r.len(),
            out.as_mut_ptr(),
            out.len(),
        )
    }
}

/// The step of the interval t with the interval r for dimension k, and 2^32 times the length of the result.
/// Refused by 1 to 7.
#[inline]
pub fn substitute_interval(ledger: &mut [u8], t: &[u8], k: u64, r: &[u8], out: &mut [u8]) -> i64 {
    unsafe {
        lf_substitute_interval(
            ledger.as_mut_ptr(),
            ledger.len(),
            t.as_ptr(),
            t.len(),
            k,
            r.as_ptr(),
            r.len(),
            out.as_mut_ptr(),
            out.len(),
        )
    }
}

/// The step that the face a implies the face b over d. Refused by 1, 2, 3, 4, 7, 8, 9.
#[inline]
pub fn entails(ledger: &mut [u8], d: u64, a: &[u8], b: &[u8]) -> i64 {
    unsafe { lf_entails(ledger.as_mut_ptr(), ledger.len(), d, a.as_ptr(), a.len(), b.as_ptr(), b.len()) }
}

/// d, the length of an assignment that satisfies the face a and not the face b, which is in front of the output: a byte
/// for each dimension, 0 zero, 1 one, 2 undetermined. Refused by 2, 3, 4, 6, 8, 12.
#[inline]
pub fn counterexample(d: u64, a: &[u8], b: &[u8], out: &mut [u8]) -> i64 {
    unsafe { lf_counterexample(d, a.as_ptr(), a.len(), b.as_ptr(), b.len(), out.as_mut_ptr(), out.len()) }
}

/// How many nodes the face f has, where the producer takes it. Refused by 2, 3, 4, 13.
#[inline]
pub fn fence_face(f: &[u8]) -> i64 {
    unsafe { lf_fence_face(f.as_ptr(), f.len()) }
}

/// How many nodes the interval r has, where the producer takes it. Refused by 2, 3, 4, 13.
#[inline]
pub fn fence_interval(r: &[u8]) -> i64 {
    unsafe { lf_fence_interval(r.as_ptr(), r.len()) }
}

/// The length of the face that a text is, which is in front of the output. Refused by 3, 4, 11, 6.
#[inline]
pub fn read_face(source: &[u8], out: &mut [u8]) -> i64 {
    unsafe { lf_read_face(source.as_ptr(), source.len(), out.as_mut_ptr(), out.len()) }
}

/// The length of the interval that a text is, which is in front of the output. Refused by 3, 4, 11, 6.
#[inline]
pub fn read_interval(source: &[u8], out: &mut [u8]) -> i64 {
    unsafe { lf_read_interval(source.as_ptr(), source.len(), out.as_mut_ptr(), out.len()) }
}

/// The claim that a text is: d, 2^16 times the length of the face in front of a, 2^32 times that in front of b.
/// Refused by 3, 4, 11, 6.
#[inline]
pub fn read_claim(source: &[u8], a: &mut [u8], b: &mut [u8]) -> i64 {
    unsafe { lf_read_claim(source.as_ptr(), source.len(), a.as_mut_ptr(), a.len(), b.as_mut_ptr(), b.len()) }
}

/// The length of the text of a face, which is in front of the output. Refused by 2, 3, 4, 6.
#[inline]
pub fn write_face(f: &[u8], out: &mut [u8]) -> i64 {
    unsafe { lf_write_face(f.as_ptr(), f.len(), out.as_mut_ptr(), out.len()) }
}

/// The length of the text of an interval, which is in front of the output. Refused by 2, 3, 4, 6.
#[inline]
pub fn write_interval(r: &[u8], out: &mut [u8]) -> i64 {
    unsafe { lf_write_interval(r.as_ptr(), r.len(), out.as_mut_ptr(), out.len()) }
}

/// The length of the normal form of a face, which is in front of the output. Refused by 2, 3, 4, 5, 6.
#[inline]
pub fn normal(f: &[u8], out: &mut [u8]) -> i64 {
    unsafe { lf_normal(f.as_ptr(), f.len(), out.as_mut_ptr(), out.len()) }
}

/// The length of the line of a step, which is in front of the output; 0 past the last step. Refused by 1, 6.
#[inline]
pub fn write_step(ledger: &[u8], step: u64, out: &mut [u8]) -> i64 {
    unsafe { lf_write_step(ledger.as_ptr(), ledger.len(), step, out.as_mut_ptr(), out.len()) }
}

/// Where the operands of a step begin in the ledger, and 2^32 times their length; 0 where there is no such step.
#[inline]
pub fn operands(ledger: &[u8], step: u64) -> i64 {
    unsafe { lf_operands(ledger.as_ptr(), ledger.len(), step) }
}

/// The kind of a step, 1 to 75; 0 where there is no such step.
#[inline]
pub fn kind(ledger: &[u8], step: u64) -> i64 {
    unsafe { lf_kind(ledger.as_ptr(), ledger.len(), step) }
}

/// One more than the step that reference i of a step names; 0 where there is none.
#[inline]
pub fn reference(ledger: &[u8], step: u64, i: u64) -> i64 {
    unsafe { lf_reference(ledger.as_ptr(), ledger.len(), step, i) }
}

/// The length of the name of a kind's rule, which is in front of the output; 0 for no kind. Refused by 6.
#[inline]
pub fn rule_name(kind: u64, out: &mut [u8]) -> i64 {
    unsafe { lf_rule_name(kind, out.as_mut_ptr(), out.len()) }
}

/// The length of all that the program facesteps prints for an input, which is in front of the output. Refused by 6.
#[inline]
pub fn facesteps(input: &[u8], out: &mut [u8]) -> i64 {
    unsafe { lf_facesteps(input.as_ptr(), input.len(), out.as_mut_ptr(), out.len()) }
}

//! The port's leaf functions, and the plain engine: the C symbols of libleaves.a. A slice passes as a pointer and a length; nothing is written to
//! one that is too short, and the plain engine refuses such a slice.

/// A function of two matrices.
pub type Of2 = unsafe extern "C" fn(*const f64, usize, *const f64, usize, *mut f64, usize);
/// A function of one matrix.
pub type Of1 = unsafe extern "C" fn(*const f64, usize, *mut f64, usize);

// SAFETY: the symbols are those of the archive; these functions take and give plain numbers.
unsafe extern "C" {
    pub safe fn leaf_sqrt(x: f64) -> f64;
    pub safe fn leaf_abs(x: f64) -> f64;
    pub safe fn leaf_max(a: f64, b: f64) -> f64;
    pub safe fn leaf_min(a: f64, b: f64) -> f64;
    pub safe fn leaf_clamp(x: f64, lo: f64, hi: f64) -> f64;
    pub safe fn leaf_from_bits(b: u64) -> f64;
    pub safe fn leaf_to_bits(x: f64) -> u64;
}

extern "C" {
    pub fn leaf_mul2(
        a: *const f64,
        an: usize,
        b: *const f64,
        bn: usize,
        out: *mut f64,
        outn: usize,
    );
    pub fn leaf_kron(
        a: *const f64,
        an: usize,
        b: *const f64,
        bn: usize,
        out: *mut f64,
        outn: usize,
    );
    pub fn leaf_mul4(
        a: *const f64,
        an: usize,
        b: *const f64,
        bn: usize,
        out: *mut f64,
        outn: usize,
    );
    pub fn leaf_dag2(a: *const f64, an: usize, out: *mut f64, outn: usize);
    pub fn leaf_dag4(a: *const f64, an: usize, out: *mut f64, outn: usize);
    pub fn leaf_swap_qubits(a: *const f64, an: usize, out: *mut f64, outn: usize);
    pub fn leaf_majorana_map1(u: *const f64, un: usize, out: *mut f64, outn: usize);
    pub fn leaf_majorana_map2(u: *const f64, un: usize, out: *mut f64, outn: usize);
    fn leaf_classify2(
        relabel: bool,
        tol: f64,
        u: *const f64,
        un: usize,
        out: *mut f64,
        outn: usize,
    ) -> u32;
    fn leaf_class_residual(relabel: bool, tol: f64, u: *const f64, un: usize) -> f64;
    fn leaf_plain_apply(n: usize, matrix: *mut f64, mn: usize, op: *const f64, on: usize) -> u64;
}

/// Calls a function of two matrices on slices.
pub fn call2(f: Of2, a: &[f64], b: &[f64], out: &mut [f64]) {
    // SAFETY: each pointer comes with the length of its slice, and the three do not overlap.
    unsafe { f(a.as_ptr(), a.len(), b.as_ptr(), b.len(), out.as_mut_ptr(), out.len()) }
}

/// Calls a function of one matrix on slices.
pub fn call1(f: Of1, a: &[f64], out: &mut [f64]) {
    // SAFETY: each pointer comes with the length of its slice, and the two do not overlap.
    unsafe { f(a.as_ptr(), a.len(), out.as_mut_ptr(), out.len()) }
}

/// The number of a block's class (see crates/leaves/specs/Classes.antt); the matrix to apply goes to `out`.
pub fn classify2(relabel: bool, tol: f64, u: &[f64], out: &mut [f64]) -> u32 {
    // SAFETY: each pointer comes with the length of its slice, and the two do not overlap.
    unsafe { leaf_classify2(relabel, tol, u.as_ptr(), u.len(), out.as_mut_ptr(), out.len()) }
}

/// The residual of a block's class.
pub fn class_residual(relabel: bool, tol: f64, u: &[f64]) -> f64 {
    // SAFETY: the pointer comes with the length of its slice.
    unsafe { leaf_class_residual(relabel, tol, u.as_ptr(), u.len()) }
}

/// The plain engine's `apply`: the number of its refusal, or 0.
pub fn plain_apply(n: usize, matrix: &mut [f64], op: &[f64]) -> u64 {
    // SAFETY: each pointer comes with the length of its slice, and the two do not overlap.
    unsafe { leaf_plain_apply(n, matrix.as_mut_ptr(), matrix.len(), op.as_ptr(), op.len()) }
}

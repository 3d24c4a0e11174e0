//! The original's functions, on matrices that lie in the same buffers as the port's.

use crate::layout::given_floats;
use original::gate::{Mat2, Mat4};

/// Floats of a 2 by 2 matrix, and of a 4 by 4 one.
pub const FLAT2: usize = given_floats(1);
pub const FLAT4: usize = given_floats(2);

/// Entries of a 2 by 2 matrix, row by row, real before imaginary.
pub type Flat2 = [f64; FLAT2];
/// Entries of a 4 by 4 matrix.
pub type Flat4 = [f64; FLAT4];

/// The buffer as the original's 2 by 2 matrix.
pub fn mat2(m: &Flat2) -> &Mat2 {
    // SAFETY: a complex number is two floats, real before imaginary, so both types have one layout.
    unsafe { &*(m as *const Flat2 as *const Mat2) }
}

/// The buffer as the original's 4 by 4 matrix.
pub fn mat4(m: &Flat4) -> &Mat4 {
    // SAFETY: as above.
    unsafe { &*(m as *const Flat4 as *const Mat4) }
}

/// The hardware's root, called like the port's.
#[inline(never)]
pub fn sqrt(x: f64) -> f64 {
    x.sqrt()
}

/// Rust's larger of two. Of two zeros it may give either; compiled like this it gives the first.
#[inline(never)]
pub fn max(a: f64, b: f64) -> f64 {
    a.max(b)
}

/// Rust's smaller of two.
#[inline(never)]
pub fn min(a: f64, b: f64) -> f64 {
    a.min(b)
}

//! What `fuse` gives, with public fields, the same for every tree.

use crate::gate::{Mat2, Mat4};

/// The kinds of `Kind2`, without their data.
#[derive(Clone, Copy, Debug, PartialEq, Eq)]
pub enum Kind {
    Diag,
    Match,
    NonGaussian,
}

/// `Item`; the phase of a diagonal block stays with its kind.
#[derive(Clone, Copy, Debug)]
pub enum Item {
    One { w: usize, u: Mat2 },
    Two { a: usize, b: usize, v: Mat4, kind: Kind, g: f64, residual: f64 },
    Opaque,
}

/// `Fused`.
#[derive(Clone, Debug)]
pub struct Fused {
    pub items: Vec<Item>,
    pub slot_of_qubit: Vec<usize>,
    pub content: Vec<usize>,
    pub swaps: usize,
}

//! What the original does not tell of a list: how many cuts it tried, and whether one of them passed
//! an off-diagonal test (`angled`).

use crate::list::{List, RELABEL};
use original::traced::detect::access::trace;
use original::traced::detect::DetectOptions;

/// The least tolerance for which document 01 compares angled lists.
pub const LEAST_TOL: f64 = 1e-12;

pub struct Traced {
    pub tried: usize,
    pub angled: bool,
    /// Angled, and the two engines may differ: the tolerance is too small, or some phase lies between
    /// half and twice the tolerance.
    pub apart: bool,
}

pub fn traced(list: &List) -> Traced {
    let (tol, relabel_swaps, reorder) = (list.tol, list.has(RELABEL), false);
    let seen = trace(&list.circuit(), &DetectOptions { tol, relabel_swaps, reorder });
    let apart = seen.angled && (seen.near || tol < LEAST_TOL);
    Traced { tried: seen.tried, angled: seen.angled, apart }
}

//! The original's `apply` on operations in the port's form.

use crate::layout::{kind, OP_PLACES};
use original::access::detect::GaussOp;
use original::access::state::{access, GaussianState};

/// The vacuum after the operations, with a mode table.
pub fn evolved(n: usize, ops: &[f64], modes: Vec<usize>) -> GaussianState {
    let mut s = GaussianState::vacuum(n);
    ops.chunks(OP_PLACES).filter_map(operation).for_each(|op| s.apply(&op));
    access::state(n, access::m(&s).to_vec(), access::d(&s).to_vec(), modes)
}

/// The original's operation of its places; none for an interaction.
fn operation(places: &[f64]) -> Option<GaussOp> {
    let (mode, q) = (places[1] as usize, &places[2..]);
    match places[0] {
        kind::ONE => Some(GaussOp::One { mode, q: [[q[0], q[1]], [q[2], q[3]]] }),
        kind::TWO => {
            let q = std::array::from_fn(|i| std::array::from_fn(|j| q[4 * i + j]));
            Some(GaussOp::Two { mode, q })
        }
        _ => None,
    }
}

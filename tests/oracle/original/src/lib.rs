//! The original engine, compiled unmodified. `engines::gaussian` is what the
//! runs use; `access` is the same text with its private functions made
//! reachable, for the parts that have no public name; `given` has gates that
//! hold their matrices.

pub mod given_gates;
pub mod items;
mod stubs;

pub use num_complex::Complex64;
pub use stubs::{io, noise};

include!(concat!(env!("OUT_DIR"), "/tree.rs"));

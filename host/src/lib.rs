//! The proved free-fermion engine in Rust's hands: a safe wrapper of its static library (`engine`), gate lists as text
//! (`list`), tapes (`tape`), and what the tool `jozkeral` does with them.
//!
//! ```no_run
//! use jozkeral::{engine::Engine, engine::Library, list};
//!
//! let list = list::read("qubits 2\nx 0\niswap 0 1\n", &[]).expect("a gate list");
//! let run = Library.run(&list.tape()).expect("a free-fermion circuit");
//! let parity = Library.expectation_z_product(&run.state, &[1]).expect("a qubit");
//! assert_eq!(parity.value, -1.0);
//! ```

pub mod draws;
pub mod engine;
pub mod fault;
pub mod gates;
pub mod job;
pub mod json;
pub mod layout;
mod library;
mod line;
pub mod list;
pub mod options;
pub mod refusals;
pub mod report;
pub mod source;
pub mod svg;
pub mod tape;
mod text;
pub mod wording;
pub mod zero;

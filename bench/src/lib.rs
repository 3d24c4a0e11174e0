//! Original and port in one process: the same bits, then time, instructions and memory.

pub mod angles;
mod asks;
pub mod callgrind;
pub mod circuits;
mod clock;
pub mod compare;
pub mod compile;
pub mod counts;
pub mod growth;
mod inputs;
#[path = "../../host/src/library.rs"]
pub mod jozkeral;
mod lent;
mod original_side;
mod pieces;
pub mod plain;
pub mod plot;
mod port;
mod ran;
mod rows;
pub mod runs;
mod slice;
mod states;
pub mod strings;
pub mod times;

pub use oracle::{layout, table};

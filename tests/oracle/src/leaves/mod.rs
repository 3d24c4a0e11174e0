//! The stored lists of leaf results. A record is a tag, operands, and the
//! expected result. docs/TESTING.md has the table of tags.

mod products;
mod roots;
mod scalars;

use crate::records::Records;

/// Tags of records.
pub mod tag {
    pub const SQRT: u64 = 1;
    pub const ABS: u64 = 2;
    pub const MAX: u64 = 3;
    pub const MIN: u64 = 4;
    pub const CLAMP: u64 = 5;
    pub const TABLE1: u64 = 6;
    pub const TABLE2: u64 = 7;
    pub const MUL2: u64 = 8;
    pub const DAG2: u64 = 9;
    pub const KRON: u64 = 10;
    pub const MUL4: u64 = 11;
    pub const DAG4: u64 = 12;
    pub const SWAP_QUBITS: u64 = 13;
}

/// The list with records of every tag.
pub fn leaves() -> Vec<u8> {
    let mut out = Records::default();
    roots::add(&mut out);
    scalars::add(&mut out);
    products::add_tables(&mut out);
    products::add_two(&mut out);
    products::add_first(&mut out);
    out.bytes()
}

/// The second list: the products that do not fit into the first.
pub fn more_products() -> Vec<u8> {
    let mut out = Records::default();
    products::add_rest(&mut out);
    out.bytes()
}

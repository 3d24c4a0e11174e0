//! Random gate lists, by family. A new family is a file of its own and a row
//! of the table.

mod angles;
mod finish;
pub mod maker;
mod matchgate;
mod opaque;
pub mod phases;
pub mod pieces;
mod register;
mod reorder;
mod signs;
mod tails;
pub mod wide;

use crate::list::List;
use crate::rng::Rng;

/// A family makes a list from a source of random numbers.
pub type Family = fn(&mut Rng) -> List;

/// The families by name. `phases` and `wide` are beside them: for the bench alone.
pub const FAMILIES: [(&str, Family); 7] = [
    ("register", register::make),
    ("matchgate", matchgate::make),
    ("angles", angles::make),
    ("reorder", reorder::make),
    ("opaque", opaque::make),
    ("tails", tails::make),
    ("signs", signs::make),
];

/// The family of a name.
pub fn find(name: &str) -> Result<Family, String> {
    let row = FAMILIES.iter().find(|row| row.0 == name);
    let names: Vec<&str> = FAMILIES.iter().map(|row| row.0).collect();
    row.map(|row| row.1)
        .ok_or_else(|| format!("`{name}` is no family; there are {}", names.join(", ")))
}

//! The other families on 13 to 128 qubits, which a state vector does not take.

use super::pieces::phase;
use super::{angles, matchgate, reorder};
use crate::layout::MAX_GATES;
use crate::list::{List, RELABEL, REORDER};
use crate::rng::Rng;

/// Blocks at most: with its tails one has up to 16 gates, most have fewer.
const BLOCKS: usize = 140;

pub fn make(rng: &mut Rng) -> List {
    let n = rng.pick(&[13, 16, 32, 33, 60, 64, 65, 100, 127, 128]);
    let blocks = rng.between(n / 2, BLOCKS);
    let flags = rng.below(8) as u8;
    let mut list = match rng.below(4) {
        0 => reorder::on(rng, n, flags | REORDER, blocks),
        1 => angles::on(rng, n, flags | RELABEL, blocks, false, phase),
        _ => matchgate::on(rng, n, flags, blocks),
    };
    list.gates.truncate(MAX_GATES);
    list
}

//! Matchgates on neighbouring wires, none diagonal, no pair twice in a row: no
//! cut that is tried is diagonal, so the answers compare bit for bit. Flips
//! stand between rotations by an angle, where a lost sign turn shows.

use super::finish::{limit, size, tol};
use super::maker::{neighbours, Maker};
use super::pieces::{matchgate, phase_or_flip};
use crate::list::List;
use crate::rng::Rng;
use original::gate::Gate;

pub fn make(rng: &mut Rng) -> List {
    let n = size(rng, 1);
    let flags = rng.below(8) as u8;
    let blocks = rng.between(0, 3 * n);
    on(rng, n, flags, blocks)
}

/// The list of so many qubits and blocks.
pub fn on(rng: &mut Rng, n: usize, flags: u8, blocks: usize) -> List {
    let mut maker = Maker::new(rng, n, flags);
    for _ in 0..blocks {
        some_tails(&mut maker, phase_or_flip);
        let swap = maker.relabels() && maker.rng.chance(1, 10);
        match maker.fresh_pair(neighbours) {
            Some((a, b)) if swap => maker.swap(a, b),
            Some((a, b)) => {
                let swaps = maker.relabels();
                let piece = matchgate(maker.rng, a, b, swaps);
                maker.block(a, b, piece);
            }
            None => {}
        }
    }
    some_tails(&mut maker, phase_or_flip);
    let (tol, limit) = (tol(maker.rng), limit(maker.rng, n));
    maker.finish(tol, limit)
}

/// A few one-qubit gates here and there.
pub fn some_tails(maker: &mut Maker, gate: fn(&mut Rng, usize) -> Gate) {
    for _ in 0..maker.rng.below(4) {
        let q = maker.qubit();
        let gate = gate(maker.rng, q);
        maker.tail(&[gate]);
    }
}

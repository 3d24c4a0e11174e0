//! Diagonal blocks, with and without interaction phase, between matchgates. A
//! flip beside a diagonal block makes a matchgate of it, which needs neighbours,
//! so most lists have phases only.

use super::finish::{limit, size, USUAL_TOL};
use super::maker::{neighbours, Maker};
use super::matchgate::some_tails;
use super::pieces::{free_diagonal, interaction, matchgate, phase, phase_or_flip, Piece};
use crate::list::List;
use crate::rng::Rng;
use original::gate::Gate;

pub fn make(rng: &mut Rng) -> List {
    let n = size(rng, 2);
    let flags = rng.below(8) as u8;
    let interacts = rng.chance(1, 3);
    let tail = if rng.chance(1, 3) { phase_or_flip } else { phase };
    let blocks = rng.between(1, 3 * n);
    on(rng, n, flags, blocks, interacts, tail)
}

/// The list of so many qubits and blocks, with or without interactions, with these one-qubit gates.
pub fn on(
    rng: &mut Rng,
    n: usize,
    flags: u8,
    blocks: usize,
    interacts: bool,
    tail: fn(&mut Rng, usize) -> Gate,
) -> List {
    let mut maker = Maker::new(rng, n, flags);
    for _ in 0..blocks {
        some_tails(&mut maker, tail);
        if interacts && maker.rng.chance(1, 4) {
            add(&mut maker, |_, _| true, interaction);
        } else {
            match maker.rng.below(4) {
                0 => add(&mut maker, neighbours, matchgate),
                1 => add(&mut maker, neighbours, controlled_z),
                _ => add(&mut maker, |_, _| true, free_diagonal),
            }
        }
    }
    some_tails(&mut maker, tail);
    let tol = maker.rng.pick(&[USUAL_TOL, 1e-12, 1e-8]);
    let limit = limit(maker.rng, n);
    maker.finish(tol, limit)
}

type Block = fn(&mut Rng, usize, usize, bool) -> Piece;

/// Adds a block; seldom one that joins the block before it.
fn add(maker: &mut Maker, fits: fn(usize, usize) -> bool, block: Block) {
    let pair = match maker.rng.chance(1, 20) {
        true => maker.pair(fits),
        false => maker.fresh_pair(fits),
    };
    if let Some((a, b)) = pair {
        let swaps = maker.relabels();
        let piece = block(maker.rng, a, b, swaps);
        maker.block(a, b, piece);
    }
}

/// A controlled Z, which with relabelling is a fermionic swap, else an interaction; seldom used there.
fn controlled_z(rng: &mut Rng, a: usize, b: usize, relabels: bool) -> Piece {
    match relabels || rng.chance(1, 10) {
        true => Piece { gates: vec![Gate::Cz(a, b)], swaps: true },
        false => matchgate(rng, a, b, false),
    }
}

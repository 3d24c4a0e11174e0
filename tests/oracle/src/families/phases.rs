//! Interaction phases next to the tolerance: some count and some do not. Where
//! one lies between half and twice the tolerance the two engines may differ.

use super::finish::{limit, size};
use super::maker::{neighbours, Maker};
use super::matchgate::some_tails;
use super::pieces::{matchgate, phase, Piece};
use crate::list::List;
use crate::rng::Rng;
use original::gate::Gate;

/// Phases in units of the tolerance.
const UNITS: [f64; 12] = [0.01, 0.3, 0.45, 0.49, 0.51, 0.99, 1.01, 1.99, 2.01, 2.2, 5.0, 100.0];

pub fn make(rng: &mut Rng) -> List {
    let n = size(rng, 2);
    let flags = rng.below(8) as u8;
    let blocks = rng.between(1, 2 * n);
    let tol = rng.pick(&[1e-12, 1e-11, 1e-10]);
    let mut maker = Maker::new(rng, n, flags);
    for _ in 0..blocks {
        some_tails(&mut maker, phase);
        let small = maker.rng.chance(1, 2);
        let fits = |v: usize, w: usize| small || neighbours(v, w);
        if let Some((a, b)) = maker.fresh_pair(fits) {
            let swaps = maker.relabels();
            let piece = match small {
                true => Piece::still(vec![Gate::CPhase(a, b, near(maker.rng, tol))]),
                false => matchgate(maker.rng, a, b, swaps),
            };
            maker.block(a, b, piece);
        }
    }
    let limit = limit(maker.rng, n);
    maker.finish(tol, limit)
}

/// A phase of either sign, mostly one that both engines see alike.
fn near(rng: &mut Rng, tol: f64) -> f64 {
    let unit = if rng.chance(1, 4) { rng.pick(&UNITS) } else { rng.pick(&[0.3, 0.45, 2.2, 5.0]) };
    if rng.chance(1, 2) {
        -unit * tol
    } else {
        unit * tol
    }
}

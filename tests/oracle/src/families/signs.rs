//! Parity-odd blocks between rotations: each turns the signs of all later modes,
//! which the rotations before have joined to the earlier ones and those after
//! mix with them. An engine that loses the turn gives other answers.

use super::finish::{limit, size, USUAL_TOL};
use super::maker::Maker;
use super::pieces::{xx, Piece};
use crate::list::List;
use crate::rng::Rng;
use original::gate::Gate;

pub fn make(rng: &mut Rng) -> List {
    let n = size(rng, 3);
    let flags = rng.below(8) as u8;
    let rounds = rng.between(1, 3);
    let mut maker = Maker::new(rng, n, flags);
    rotations(&mut maker);
    for _ in 0..rounds {
        odd(&mut maker);
        if maker.rng.chance(1, 2) {
            let q = maker.qubit();
            let flip = maker.rng.pick(&[Gate::X(q), Gate::Y(q)]);
            maker.tail(&[flip]);
        }
        rotations(&mut maker);
    }
    let limit = limit(maker.rng, n);
    maker.finish(USUAL_TOL, limit)
}

/// Rotations of neighbours: those of even wires with the next ones, then of odd wires.
fn rotations(maker: &mut Maker) {
    for start in 0..2 {
        for w in (start..maker.n - 1).step_by(2) {
            let here = |v: usize, x: usize| v.min(x) == w && v.max(x) == w + 1;
            if let Some((a, b)) = maker.fresh_pair(here) {
                let gates = xx(a, b, clear_angle(maker.rng));
                maker.block(a, b, Piece::still(gates));
            }
        }
    }
}

/// An angle for which a rotation is neither nothing nor a flip of both.
fn clear_angle(rng: &mut Rng) -> f64 {
    let t = 0.3 + 0.9 * rng.unit();
    if rng.chance(1, 2) {
        -t
    } else {
        t
    }
}

/// A parity-odd block with a wire after it: rotations or an iswap with a flip between or beside them.
fn odd(maker: &mut Maker) {
    let w = maker.rng.below(maker.n - 2);
    let here = |v: usize, x: usize| v.min(x) == w && v.max(x) == w + 1;
    if let Some((a, b)) = maker.pair(here) {
        let flip = maker.rng.pick(&[Gate::X(a), Gate::Y(a), Gate::X(b)]);
        let (first, last) = (clear_angle(maker.rng), clear_angle(maker.rng));
        let gates = match maker.rng.below(3) {
            0 => vec![Gate::ISwap(a, b), flip],
            1 => [vec![flip], xx(a, b, first)].concat(),
            _ => [xx(a, b, first), vec![flip], xx(b, a, last)].concat(),
        };
        maker.block(a, b, Piece::still(gates));
    }
}

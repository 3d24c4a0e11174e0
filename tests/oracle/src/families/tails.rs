//! Long one-qubit tails between blocks, about as long as the cut window. A
//! rotation by ZZ is Gaussian only between Hadamards, so each tail has a part
//! that the block before needs and a part that the block after needs, and the
//! cut between them must be found. It is, unless both are longer than the
//! window. Other lists have a few Clifford gates at random, whose residuals
//! differ by rounding if at all; whole scores hardly ever tie (`fused::ties`).

use super::finish::{limit, tol};
use super::maker::{neighbours, Maker};
use super::matchgate::some_tails;
use super::pieces::{phase_or_flip, zz, Piece};
use crate::list::List;
use crate::rng::Rng;
use original::gate::Gate;

/// The window of cuts that are tried at either end of a tail.
const CUT_WINDOW: usize = 8;

pub fn make(rng: &mut Rng) -> List {
    let n = rng.between(2, 5);
    let flags = rng.below(8) as u8;
    let blocks = rng.between(1, 5);
    let clifford = rng.chance(1, 3);
    let short = rng.chance(1, 2);
    let mut maker = Maker::new(rng, n, flags);
    for _ in 0..blocks {
        match maker.fresh_pair(neighbours) {
            Some((a, b)) if clifford => clifford_block(&mut maker, a, b),
            Some((a, b)) => between_hadamards(&mut maker, a, b, short),
            None => {}
        }
    }
    some_tails(&mut maker, phase_or_flip);
    let (tol, limit) = (tol(maker.rng), limit(maker.rng, n));
    maker.finish(tol, limit)
}

/// A named two-qubit gate between short tails of Clifford gates.
fn clifford_block(maker: &mut Maker, a: usize, b: usize) {
    let gate = maker.rng.pick(&[Gate::Cnot(a, b), Gate::Cz(a, b), Gate::ISwap(a, b)]);
    clifford_tails(maker, a, b);
    maker.block(a, b, Piece::still(vec![gate]));
    clifford_tails(maker, a, b);
}

fn clifford_tails(maker: &mut Maker, a: usize, b: usize) {
    for _ in 0..maker.rng.below(6) {
        let q = maker.rng.pick(&[a, b]);
        let gates = [Gate::H(q), Gate::Sx(q), Gate::Sxdg(q), Gate::X(q), Gate::S(q), Gate::Z(q)];
        let gate = maker.rng.pick(&gates);
        maker.tail(&[gate]);
    }
}

/// A rotation by ZZ with the tails that make it one by XX. With `short` the
/// parts before it are never longer than the window.
fn between_hadamards(maker: &mut Maker, a: usize, b: usize, short: bool) {
    let t = maker.rng.angle();
    let piece = Piece::still(zz(a, b, t));
    let swapped = maker.relabels() && maker.rng.chance(1, 6);
    for q in [a, b] {
        let gates = part(maker.rng, q, short);
        maker.tail(&gates);
    }
    maker.block(a, b, if swapped { piece.swapped(a, b) } else { piece });
    for q in [a, b] {
        let gates: Vec<Gate> = part(maker.rng, q, false).iter().rev().map(Gate::inverse).collect();
        maker.tail(&gates);
    }
}

/// A Hadamard, then gates whose product is Z or nothing: pairs that cancel, with
/// a Z between or beside them. No cut inside serves in place of the one before
/// the Hadamard. Only the Z is diagonal, so none is merged.
fn part(rng: &mut Rng, q: usize, short: bool) -> Vec<Gate> {
    let longest = if short { CUT_WINDOW } else { CUT_WINDOW + 2 };
    let length = match rng.chance(1, 2) {
        true => rng.between(CUT_WINDOW - 1, longest),
        false => rng.between(1, longest),
    };
    let mut out = vec![Gate::H(q)];
    if length % 2 == 0 {
        out.push(Gate::Z(q));
    }
    while out.len() < length {
        let gate = not_diagonal(rng, q);
        let at = rng.between(1, out.len());
        out.splice(at..at, [gate, gate.inverse()]);
    }
    out
}

fn not_diagonal(rng: &mut Rng, q: usize) -> Gate {
    match rng.below(6) {
        0 => Gate::H(q),
        1 => Gate::Sx(q),
        2 => Gate::Sxdg(q),
        3 => Gate::Ry(q, rng.angle()),
        4 => Gate::Rx(q, rng.angle()),
        _ => Gate::U(q, rng.angle(), rng.angle(), rng.angle()),
    }
}

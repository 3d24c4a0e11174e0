//! Blocks of named gates, angle gates and products of them.

use super::two;
use crate::families::pieces::{self, matrix};
use crate::records::Records;
use crate::rng::Rng;
use crate::tape::{NAMED1, NAMED2};
use original::access::detect::access as detect;
use original::gate::{Gate, Mat2, Mat4};
use std::f64::consts::PI;

pub fn add(out: &mut Records) {
    let rng = &mut Rng::new(7);
    let identity = NAMED1[0].1.matrix_1q().expect("a one-qubit gate");
    let mut all: Vec<Mat4> = vec![detect::kron(&identity, &identity)];
    all.extend(NAMED2.map(|(_, gate)| matrix(&[gate])));
    // each named gate on either wire
    all.extend((1..9).map(|k| detect::kron(&named1(k), &named1((3 * k + 1) % 9))));
    all.extend(angles().map(|t| matrix(&[Gate::CPhase(0, 1, t)])));
    all.extend(angles().map(|t| matrix(&pieces::xx(0, 1, t))));
    all.extend(angles().map(|t| matrix(&[Gate::Phase(0, t), Gate::ISwap(0, 1), Gate::Cz(0, 1)])));
    all.extend((0..12).map(|_| matrix(&pieces::matchgate(rng, 0, 1, true).gates)));
    all.extend((0..8).map(|_| matrix(&pieces::free_diagonal(rng, 0, 1, true).gates)));
    all.extend((0..8).map(|_| matrix(&pieces::interaction(rng, 1, 0, true).gates)));
    all.extend((0..12).map(|_| with_tails(rng)));
    all.extend((0..8).map(|_| product(rng)));
    // diagonal, and SWAP times a matchgate: with relabelling the second comes first
    all.extend((0..4).map(|k| matrix(&[Gate::Cz(0, 1), Gate::Rz(k % 2, 0.3 * k as f64)])));
    all.extend([0.3, 2e-4, 4e-11].map(nearly));
    all.iter().for_each(|u| two(out, u));
}

fn named1(k: usize) -> Mat2 {
    NAMED1[k].1.matrix_1q().expect("a one-qubit gate")
}

/// Angles: common ones, and some about as small as a tolerance.
fn angles() -> impl Iterator<Item = f64> {
    [0.0, PI, -PI / 2.0, 0.7, 2.0 * PI, 3e-3, 3e-4, 5e-10, 4e-11, 2.5e-12, 3e-13].into_iter()
}

/// A rotation by an angle that a tolerance may take for none.
fn nearly(t: f64) -> Mat4 {
    let mut gates = pieces::xx(0, 1, 0.9);
    gates.extend(pieces::zz(0, 1, t));
    matrix(&gates)
}

/// A block with one-qubit gates of every kind before and after it.
fn with_tails(rng: &mut Rng) -> Mat4 {
    let mut gates = pieces::matchgate(rng, 0, 1, true).gates;
    for q in [0, 1] {
        gates.insert(0, pieces::phase_or_flip(rng, q));
        gates.push(pieces::phase_or_flip(rng, q));
    }
    matrix(&gates)
}

/// Any gates: nearly always neither.
fn product(rng: &mut Rng) -> Mat4 {
    let (t, s) = (rng.angle(), rng.angle());
    let gates = [
        Gate::Ry(0, t),
        Gate::ISwap(0, 1),
        Gate::U(1, t, s, 0.4),
        rng.pick(&NAMED2).1,
        Gate::H(0),
        Gate::Rx(1, s),
    ];
    matrix(&gates[..rng.between(3, 6)])
}

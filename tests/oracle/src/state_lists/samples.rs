//! Samples with given draws: zeros, the largest below 1, thresholds.

use super::machine::Machine;
use super::{any_modes, any_slice, float, op, Floats, FLOATS};
use crate::families::pieces;
use crate::layout::{kind, query_places, INDEX_WORDS};
use crate::rng::Rng;
use original::access::detect::access as detect;

/// The largest float below 1.
const LARGEST: f64 = 1.0 - f64::EPSILON / 2.0;

pub fn add(machine: &mut Machine) {
    let rng = &mut Rng::new(13);
    for k in 0..20 {
        arbitrary(machine, rng, 1 + k % 4, FLOATS[k % 3]);
    }
    for _ in 0..6 {
        turned_vacuum(machine, rng);
        thresholds(machine, rng, 3);
    }
    refused(machine, rng);
}

/// An arbitrary state, some shots with draws of every kind.
fn arbitrary(machine: &mut Machine, rng: &mut Rng, n: usize, kind: Floats) {
    let signs = !rng.chance(1, 4);
    machine.state(n, &any_slice(rng, n, kind, signs), &any_modes(rng, n));
    let shots = rng.between(1, 4);
    let mut draw = || match rng.chance(1, 3) {
        true => rng.pick(&[0.0, -0.0, LARGEST, 0.5, f64::from_bits(1), 0.5_f64.next_down()]),
        false => rng.unit(),
    };
    let draws: Vec<f64> = (0..n * shots).map(|_| draw()).collect();
    machine.sample(shots, &draws, INDEX_WORDS * shots + 1, query_places(n) + 2);
    thresholds(machine, rng, n);
}

/// A state that operations made from the vacuum of three modes.
fn turned_vacuum(machine: &mut Machine, rng: &mut Rng) {
    machine.vacuum(3);
    for mode in [0.0, 1.0, 0.0] {
        let u = pieces::matrix(&pieces::xx(0, 1, rng.angle()));
        machine.apply(&op(kind::TWO, mode, detect::majorana_map2(&u).0.as_flattened()));
    }
}

/// Two shots for each of the first modes: its draw is the threshold, then the largest float below that.
fn thresholds(machine: &mut Machine, rng: &mut Rng, n: usize) {
    let mut draws: Vec<f64> = vec![];
    let modes = n.min(2);
    for k in 0..modes {
        let mut shot: Vec<f64> = (0..n).map(|_| rng.unit()).collect();
        let threshold = threshold(machine, &mut shot, k);
        for draw in [threshold, threshold.next_down().max(0.0)] {
            shot[k] = draw;
            draws.extend(&shot);
        }
    }
    let shots = 2 * modes;
    machine.sample(shots, &draws, INDEX_WORDS * shots, query_places(n));
}

/// The least draw of mode k for which the shot is another than for 0.0; the largest draw if there is none.
fn threshold(machine: &Machine, shot: &mut [f64], k: usize) -> f64 {
    let mut with = |draw: f64| {
        shot[k] = draw;
        machine.shots(1, shot)
    };
    let (mut low, mut high) = (0, LARGEST.to_bits());
    while low < high {
        let middle = (low + high) / 2;
        match with(f64::from_bits(middle)) == with(0.0) {
            true => low = middle + 1,
            false => high = middle,
        }
    }
    f64::from_bits(low)
}

/// Questions 20 to 22.
fn refused(machine: &mut Machine, rng: &mut Rng) {
    machine.state(2, &any_slice(rng, 2, Floats::Dense, true), &[1, 0]);
    let good = [0.25, 0.75, 0.5, 0.5];
    machine.sample(2, &good, 4, 15);
    machine.sample(2, &good, 4, 0);
    machine.sample(2, &good, 3, 16);
    machine.sample(2, &good[..3], 4, 16);
    machine.sample(65_537, &good, 4, 16);
    machine.sample(usize::MAX, &good, 4, 16);
    machine.sample(65_536, &good, 4, 16);
    machine.sample(0, &[], 0, 16);
    machine.sample(0, &[2.0], 5, 17);
    for bad in [1.0, -f64::from_bits(1), f64::NAN, f64::INFINITY, f64::NEG_INFINITY, 2.0, -1.0] {
        for place in [0, 3] {
            let mut draws = good;
            draws[place] = bad;
            machine.sample(2, &draws, 4, 18);
        }
        // one that is not used
        machine.sample(1, &[0.1, 0.2, bad], 4, 16);
    }
    machine.state(0, &[], &[]);
    machine.sample(3, &[], 6, 2);
    machine.sample(1, &[float(rng, Floats::Dense)], 1, 2);
}

//! Operations on arbitrary states: every kind, good ones and refused ones.

use super::machine::Machine;
use super::{any_modes, any_slice, float, op, Floats, FLOATS};
use crate::layout::query_places;
use crate::rng::Rng;
use original::access::state::access;

pub fn add(machine: &mut Machine) {
    let rng = &mut Rng::new(11);
    for k in 0..33 {
        arbitrary(machine, rng, FLOATS[k % 3], k);
    }
    pivots(machine, rng);
    refused_operations(machine, rng);
    refused_states(machine, rng);
}

/// One operation on an arbitrary state of up to four modes.
fn arbitrary(machine: &mut Machine, rng: &mut Rng, kind: Floats, k: usize) {
    let n = 1 + k % 4;
    let signs = !rng.chance(1, 4);
    let mut slice = any_slice(rng, n, kind, signs);
    slice.extend((0..k % 3).map(|_| 7.0));
    let modes = any_modes(rng, n);
    machine.state(n, &slice, &modes);
    let wide = n > 1 && rng.chance(1, 2);
    let numbers: Vec<f64> = (0..if wide { 16 } else { 4 }).map(|_| float(rng, kind)).collect();
    let mode = rng.below(n - usize::from(wide)) as f64;
    machine.apply(&op(if wide { 2.0 } else { 1.0 }, mode, &numbers));
    machine.product(&[rng.below(n + 1)], query_places(1) + k % 3);
}

/// Maps whose determinant is below zero with the last largest pivot and not with the first, or the other way round.
fn pivots(machine: &mut Machine, rng: &mut Rng) {
    let mut found = [0, 0];
    while found != [4, 4] {
        let few = [1.0, -1.0, 0.1, 0.3, 1.0 / 3.0, -0.1, 0.7];
        let mut q: Vec<f64> = (0..16).map(|_| rng.pick(&few)).collect();
        // the third row is a sum of the first two, so that rounding decides
        (0..4).for_each(|c| q[8 + c] = q[c] + q[4 + c]);
        let [last, first] = [access::det::<4>(&q) < 0.0, det_first(&q) < 0.0];
        let side = usize::from(last);
        if last != first && found[side] < 4 {
            found[side] += 1;
            machine.state(3, &any_slice(rng, 3, Floats::Dense, true), &[0, 1, 2]);
            machine.apply(&op(2.0, 0.0, &q));
            machine.product(&[0], query_places(1));
        }
    }
}

/// The determinant with the first largest pivot: not the original's.
fn det_first(q: &[f64]) -> f64 {
    let mut a = q.to_vec();
    let mut d = 1.0;
    for k in 0..4 {
        let mut p = k;
        for i in k + 1..4 {
            if a[i * 4 + k].abs() > a[p * 4 + k].abs() {
                p = i;
            }
        }
        if a[p * 4 + k] == 0.0 {
            return 0.0;
        }
        if p != k {
            (0..4).for_each(|c| a.swap(p * 4 + c, k * 4 + c));
            d = -d;
        }
        d *= a[k * 4 + k];
        for i in k + 1..4 {
            let f = a[i * 4 + k] / a[k * 4 + k];
            (k..4).for_each(|c| a[i * 4 + c] -= f * a[k * 4 + c]);
        }
    }
    d
}

/// Question 17, and what it lets pass.
fn refused_operations(machine: &mut Machine, rng: &mut Rng) {
    let q: Vec<f64> = (0..16).map(|_| float(rng, Floats::Dense)).collect();
    machine.state(2, &any_slice(rng, 2, Floats::Dense, true), &[1, 0]);
    let nan = f64::NAN;
    for (kind, mode) in [
        (1.0, -0.0),
        (1.0, 1.0),
        (1.0, 2.0),
        (1.0, 0.5),
        (1.0, -1.0),
        (1.0, nan),
        (1.0, f64::INFINITY),
        (1.0, 1e300),
        (1.0, f64::from_bits(1)),
        (1.0, 18446744073709551616.0),
        (2.0, -0.0),
        (2.0, 1.0),
        (2.0, nan),
        (3.0, nan),
        (3.0, 77.0),
        (0.0, 0.0),
        (4.0, 0.0),
        (nan, 0.0),
        (1.5, 0.0),
        (-1.0, 0.0),
    ] {
        machine.apply(&op(kind, mode, &q));
    }
    machine.apply(&op(1.0, 0.0, &q)[..17]);
    machine.apply(&[]);
    let mut long = op(2.0, 0.0, &q);
    long.extend([9.0, 9.0]);
    machine.apply(&long);
    machine.state(1, &any_slice(rng, 1, Floats::Dense, true), &[0]);
    machine.apply(&op(2.0, 0.0, &q));
    machine.state(0, &[7.0], &[]);
    machine.apply(&op(1.0, 0.0, &q));
    machine.apply(&op(2.0, 0.0, &q));
    machine.apply(&op(3.0, 0.0, &q));
}

/// Question 16.
fn refused_states(machine: &mut Machine, rng: &mut Rng) {
    let slice = any_slice(rng, 2, Floats::Dense, true);
    let tables: [&[u16]; 6] = [&[0], &[0, 2], &[1, 1], &[0, 65535], &[], &[1, 0, 0]];
    for modes in tables {
        machine.state(2, &slice, modes);
        machine.apply(&op(1.0, 0.0, &[0.5; 4]));
        machine.product(&[0], 4);
        machine.product(&[0, 1], 16);
        machine.sample(1, &[0.5, 0.5], 2, 16);
    }
    for n in [129, 1 << 32, usize::MAX] {
        machine.state(n, &slice, &[0, 1]);
        machine.apply(&op(1.0, 0.0, &[0.5; 4]));
        machine.product(&[0], 4);
        machine.probability(0, 0, 16);
        machine.product(&[], 16);
    }
    machine.state(2, &slice[..19], &[0, 1]);
    machine.apply(&op(1.0, 0.0, &[0.5; 4]));
    machine.product(&[0], 4);
    machine.marginal(&[0], &[0], 16);
}

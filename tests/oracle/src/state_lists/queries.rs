//! Products, marginals and basis indices on arbitrary states.

use super::machine::Machine;
use super::{any_modes, any_slice, Floats, FLOATS};
use crate::layout::{covariance_places, query_places};
use crate::rng::Rng;

pub fn add(machine: &mut Machine) {
    let rng = &mut Rng::new(12);
    for k in 0..32 {
        let n = [2, 3, 4, 1, 5][k % 5];
        let kind = FLOATS[k % 3];
        arbitrary(machine, rng, n, kind);
    }
    // entries of equal magnitude, of which the Pfaffian takes the first
    for _ in 0..9 {
        arbitrary(machine, rng, 4, Floats::Few);
    }
}

/// Questions 16 and 18 to 20, and the edges that document 01 names.
pub fn add_edges(machine: &mut Machine) {
    lists(machine, &mut Rng::new(14));
    empty(machine);
    one(machine, &mut Rng::new(15));
}

fn arbitrary(machine: &mut Machine, rng: &mut Rng, n: usize, kind: Floats) {
    let signs = !rng.chance(1, 4);
    let slice = any_slice(rng, n, kind, signs);
    machine.state(n, &slice, &any_modes(rng, n));
    let full = query_places(n);
    machine.product(&[rng.below(n)], query_places(1) + n % 3);
    machine.product(&[rng.below(n), rng.below(n)], query_places(2));
    let all = rng.permutation(n);
    machine.product(&all, full + rng.below(3));
    let some: Vec<usize> = (0..rng.between(1, 6)).map(|_| rng.below(n)).collect();
    machine.product(&some, full);
    let bits: Vec<u8> = all.iter().map(|_| rng.below(2) as u8).collect();
    machine.marginal(&all, &bits, full);
    let some_bits: Vec<u8> = some.iter().map(|&q| bits[q] ^ u8::from(rng.chance(1, 8))).collect();
    machine.marginal(&some, &some_bits, full + 1);
    machine.probability(rng.word(), rng.word(), full);
}

fn lists(machine: &mut Machine, rng: &mut Rng) {
    machine.state(3, &any_slice(rng, 3, Floats::Dense, true), &[2, 0, 1]);
    machine.product(&[3], 4);
    machine.product(&[usize::MAX], 4);
    machine.product(&[0, 3], 16);
    machine.product(&[7, 3], 0);
    machine.product(&[1, 1], 0);
    machine.product(&[0, 1], 15);
    machine.product(&[], 0);
    machine.product(&[0, 0], 0);
    machine.product(&[0, 0, 2], 4);
    machine.product(&[0, 0, 2], 3);
    machine.product(&[2, 1, 0, 1], 16);
    machine.product(&[0, 1, 2, 3], 36);
    machine.product(&[usize::MAX, 9], 36);
    machine.product(&[0, 1, 2], 35);
    let lists: [(&[usize], &[u8]); 16] = [
        (&[], &[]),
        (&[0], &[]),
        (&[], &[1]),
        (&[0, 1], &[0, 2]),
        (&[9, 1], &[0, 255]),
        (&[0, 0], &[1, 1]),
        (&[0, 0], &[0, 1]),
        (&[0, 0, 9], &[0, 1, 0]),
        (&[0, 9, 0], &[0, 1, 1]),
        (&[9, 0, 0], &[1, 0, 1]),
        (&[1, 2, 1], &[1, 0, 1]),
        (&[2, 1, 0], &[1, 1, 1]),
        (&[2, 1, 0, 2, 1, 0, 2], &[1, 0, 0, 1, 0, 0, 1]),
        (&[2, 1, 0, 2, 1, 0, 2], &[1, 0, 0, 1, 0, 0, 0]),
        (&[2], &[0]),
        (&[0, 1], &[1, 0]),
    ];
    for (qubits, bits) in lists {
        for work in [36, 15, 3, 0] {
            machine.marginal(qubits, bits, work);
        }
    }
    for (low, high) in [(0, 0), (7, 0), (!7, !0), (0, 5), (2, 1 << 63)] {
        machine.probability(low, high, 40);
        machine.probability(low, high, 35);
    }
}

/// No qubits.
fn empty(machine: &mut Machine) {
    machine.state(0, &[], &[]);
    machine.product(&[0], 4);
    machine.product(&[0, 0], 5);
    machine.product(&[], 3);
    machine.product(&[0], 3);
    machine.marginal(&[], &[], 3);
    machine.marginal(&[0], &[0], 3);
    machine.probability(9, 9, 0);
}

/// One qubit: what its entry may be, its work, and questions 16, 19 and 20 in turn.
fn one(machine: &mut Machine, rng: &mut Rng) {
    let least = f64::from_bits(1);
    let (nan, infinity) = (f64::NAN, f64::INFINITY);
    entries(machine, rng, &[-0.0, 0.0, nan, infinity, -infinity, least, -1e-310, -f64::MAX], 1.0);
    // with the sign of a row -0.5, the entries 0.0 and least are -0.0
    entries(machine, rng, &[-0.0, 0.0, nan, infinity, -infinity, least, -least, -1e-310], -0.5);
    machine.state(3, &any_slice(rng, 3, Floats::Dense, true), &[1, 2, 0]);
    for work in [0, 3, 4, 5] {
        machine.product(&[1], work);
        machine.product(&[2, 0, 2], work);
    }
    let refused: [&[usize]; 5] = [&[3], &[1, 3], &[3, 1], &[1, 1, 3], &[3, 3]];
    for work in [0, 3, 16] {
        machine.product(&[1, 1], work);
        machine.product(&[], work);
        refused.iter().for_each(|qubits| machine.product(qubits, work));
    }
    machine.state(2, &any_slice(rng, 2, Floats::Dense, true), &[1, 1]);
    machine.product(&[9], 0);
    machine.product(&[0], 0);
}

/// Z of each qubit of a state in which it is one of these entries, times the sign of its row.
fn entries(machine: &mut Machine, rng: &mut Rng, entries: &[f64], sign: f64) {
    let n = entries.len();
    let (mut slice, modes) = (any_slice(rng, n, Floats::Dense, true), any_modes(rng, n));
    let (m, d) = slice.split_at_mut(covariance_places(n));
    d.fill(1.0);
    for (&entry, &mode) in entries.iter().zip(&modes) {
        let row = 2 * usize::from(mode);
        (m[row * 2 * n + row + 1], d[row]) = (entry, sign);
    }
    machine.state(n, &slice, &modes);
    (0..n).for_each(|q| machine.product(&[q], query_places(1) + q % 3));
}

//! Given matrices: entries of every kind that a float has, blocks beside the
//! tolerances, and diagonals on which Rust's angles would not do.

use super::rule::swapped;
use super::{c, two, TOLERANCES};
use crate::records::Records;
use crate::rng::Rng;
use original::gate::Mat4;
use original::Complex64;

const INF: f64 = f64::INFINITY;
const TINY: f64 = f64::from_bits(1);

pub fn add(out: &mut Records) {
    let rng = &mut Rng::new(8);
    let mut all: Vec<Mat4> = beside_tolerances();
    for d in diagonals() {
        all.push(diag(d));
        all.push(swapped(&diag(d)));
    }
    // both off-diagonal tests pass, plain and swapped
    all.extend(
        [1e-4, -1e-4, 1e-12, -1e-13]
            .map(|x| diag([c(1.0, 0.0), c(x, 0.0), c(1e-4, 0.0), c(1.0, 0.0)])),
    );
    all.extend((0..8).map(|_| dense(rng)));
    all.extend((0..30).map(|_| special(rng)));
    all.extend((0..6).map(|_| scaled(rng)));
    all.iter().for_each(|u| two(out, u));
}

/// The identity, and a swap times it, with one entry off the diagonal that is a tolerance or next to it.
fn beside_tolerances() -> Vec<Mat4> {
    let mut out = vec![];
    for tol in &TOLERANCES[2..] {
        for x in [*tol, tol.next_up(), -tol.next_down()] {
            let mut u = diag([c(1.0, 0.0); 4]);
            u[0][3] = c(0.0, x);
            out.push(u);
        }
        // im w is the tolerance times re w, or next to it
        for x in [*tol, tol.next_up()] {
            out.push(diag([c(1.0, 0.0), c(1.0, 0.0), c(1.0, 0.0), c(1.0, x)]));
        }
    }
    out.push(swapped(&out[0]));
    out
}

/// Diagonals by their entries.
fn diagonals() -> Vec<[Complex64; 4]> {
    let one = c(1.0, 0.0);
    vec![
        [c(0.0, 0.0); 4],
        [one, one, one, c(0.0, 0.0)],
        [one, one, c(-0.0, -0.0), c(-1.0, 0.0)],
        [c(2.0, 0.0), one, c(0.5, 0.0), c(0.25, 1e-11)],
        [c(INF, 0.0), one, one, one],
        [one, c(0.0, -INF), one, one],
        [one, one, one, c(f64::NAN, 0.0)],
        [c(1e200, 0.0), c(1e200, 0.0), c(1e200, 0.0), c(1e200, 1.0)],
        [c(TINY, 0.0), one, one, one],
        [c(1e-200, 0.0), one, c(1e-200, 0.0), one],
        [c(0.6, 0.8), c(0.6, -0.8), c(-0.6, 0.8), c(-0.6, -0.8)],
    ]
}

fn diag(d: [Complex64; 4]) -> Mat4 {
    let mut u = [[c(0.0, 0.0); 4]; 4];
    (0..4).for_each(|k| u[k][k] = d[k]);
    u
}

/// Entries from -1 to 1.
fn dense(rng: &mut Rng) -> Mat4 {
    let mut number = || 2.0 * rng.unit() - 1.0;
    let mut entry = || c(number(), number());
    std::array::from_fn(|_| std::array::from_fn(|_| entry()))
}

/// Most entries are zeros of either sign, the others of every kind.
fn special(rng: &mut Rng) -> Mat4 {
    let kinds = [1.0, -0.5, INF, -INF, f64::NAN, TINY, -1e-310, f64::MAX, 1e160, 0.0, -0.0];
    let few = rng.chance(1, 2);
    let mut entry = || match rng.chance(if few { 14 } else { 8 }, 16) {
        true => c(rng.pick(&[0.0, -0.0]), rng.pick(&[0.0, -0.0])),
        false => c(rng.pick(&kinds), rng.pick(&kinds)),
    };
    std::array::from_fn(|_| std::array::from_fn(|_| entry()))
}

/// Entries of about one magnitude, so that squares vanish or are infinite.
fn scaled(rng: &mut Rng) -> Mat4 {
    let scale = rng.pick(&[1e-160, 1e-310, 1e153, 1e155, 1e-80]);
    dense(rng).map(|row| row.map(|x| x * scale))
}

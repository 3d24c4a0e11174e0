//! One-qubit blocks, and the phases of diagonals by document 01's rule.

use super::{c, one, rule, tag};
use crate::records::Records;
use crate::rng::Rng;
use crate::tape::NAMED1;
use original::access::detect::access as detect;
use original::gate::{Gate, Mat2};
use original::Complex64;

pub fn add(out: &mut Records) {
    let rng = &mut Rng::new(9);
    ones(rng).iter().for_each(|u| one(out, u));
    diagonals(rng).into_iter().for_each(|d| phases(out, d));
}

/// Named gates, angle gates, products of them, given matrices.
fn ones(rng: &mut Rng) -> Vec<Mat2> {
    let named = |k: usize| NAMED1[k].1.matrix_1q().expect("a one-qubit gate");
    let mut out: Vec<Mat2> = (0..9).map(named).collect();
    for _ in 0..10 {
        let (t, s) = (rng.angle(), rng.angle());
        let gates = [
            Gate::Rx(0, t),
            Gate::Ry(0, t),
            Gate::Rz(0, t),
            Gate::Phase(0, t),
            Gate::U(0, t, s, t),
        ];
        out.extend(gates.map(|g| g.matrix_1q().expect("a one-qubit gate")));
    }
    for _ in 0..20 {
        let a = out[rng.below(out.len())];
        out.push(detect::mul2(&a, &named(rng.below(9))));
    }
    out.extend((0..40).map(|_| std::array::from_fn(|_| std::array::from_fn(|_| special(rng)))));
    out
}

fn diagonals(rng: &mut Rng) -> Vec<[Complex64; 4]> {
    let turned = |rng: &mut Rng| Complex64::from_polar(1.0, rng.angle());
    let mut out: Vec<[Complex64; 4]> =
        (0..40).map(|_| std::array::from_fn(|_| turned(rng))).collect();
    let quarter =
        [c(1.0, 0.0), c(0.0, 1.0), c(-1.0, 0.0), c(0.0, -1.0), c(1.0, -0.0), c(-1.0, -0.0)];
    out.extend((0..40).map(|_| std::array::from_fn(|_| rng.pick(&quarter))));
    out.extend((0..70).map(|_| std::array::from_fn(|_| special(rng))));
    out
}

/// Entries of every kind, ones most often.
fn special(rng: &mut Rng) -> Complex64 {
    let kinds = [
        1.0,
        -0.5,
        f64::INFINITY,
        -f64::INFINITY,
        f64::NAN,
        f64::from_bits(1),
        -1e-310,
        f64::MAX,
        1e-160,
        1e155,
        0.0,
        -0.0,
        0.8,
    ];
    match rng.chance(1, 2) {
        true => c(1.0, 0.0),
        false => c(rng.pick(&kinds), rng.pick(&kinds)),
    }
}

/// Adds a diagonal: entries; p_a, p_b, w, the unit of w; for either wire whether it gets a rotation,
/// and which (zeros if none).
fn phases(out: &mut Records, d: [Complex64; 4]) {
    let [a, b, w] = rule::phases(d);
    beside_angles(d, a, b);
    let flat: Vec<f64> =
        d.into_iter().chain([a, b, w, rule::unit(w)]).flat_map(|x| [x.re, x.im]).collect();
    out.floats(tag::PHASES, &[&flat]);
    for p in [a, b] {
        out.words(&[u64::from(rule::rotation(p).is_some())]);
        out.more(&rule::rotation(p).unwrap_or([0.0; 4]));
    }
}

/// For entries of magnitude 1 the rotations are those of the original's angles, within 1e-9.
fn beside_angles(d: [Complex64; 4], a: Complex64, b: Complex64) {
    if !d.iter().all(|x| (x.norm_sqr() - 1.0).abs() < 1e-12) {
        return;
    }
    let mut u = [[c(0.0, 0.0); 4]; 4];
    (0..4).for_each(|k| u[k][k] = d[k]);
    let (first, second, _) = detect::diag_phases(&u);
    for (p, angle) in [(a, first), (b, second)] {
        let q = rule::rotation(p).unwrap_or([1.0, 0.0, 0.0, 1.0]);
        let (sin, cos) = angle.sin_cos();
        assert!(
            (q[0] - cos).abs() < 1e-9 && (q[2] - sin).abs() < 1e-9,
            "the rotation of {p}, {angle}"
        );
    }
}

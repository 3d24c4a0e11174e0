//! The leaf functions.

use super::{Each, Piece};
use crate::inputs::{block, matrix, Block, Kind};
use crate::original_side::{self as rust, mat2, mat4, Flat2, Flat4, FLAT4};
use crate::port::*;
use oracle::rng::Rng;
use original::access::detect::access as detect;
use original::access::detect::DetectOptions;
use std::hint::black_box;

/// Products of one pass.
const CALLS: usize = 256;
/// Roots of one pass: so many that the processor cannot learn how each is rounded.
const ROOTS: usize = 65_536;

/// The original's tolerance.
const TOL: f64 = 1e-10;

pub fn pieces(rng: &mut Rng, each: Each) {
    roots(rng, each);
    let mul2 = |a: &Flat2, b: &Flat2| detect::mul2(mat2(a), mat2(b));
    let kron = |a: &Flat2, b: &Flat2| detect::kron(mat2(a), mat2(b));
    let mul4 = |a: &Flat4, b: &Flat4| detect::mul4(mat4(a), mat4(b));
    let small = pairs(rng, |rng| matrix(rng, Kind::Dense));
    products("mul2 dense", &small, mul2, leaf_mul2, each);
    products("kron dense", &small, kron, leaf_kron, each);
    let dense = pairs(rng, |rng| matrix(rng, Kind::Dense));
    products("mul4 dense", &dense, mul4, leaf_mul4, each);
    let half = pairs(rng, |rng| matrix(rng, Kind::HalfZeros));
    products("mul4 half zeros", &half, mul4, leaf_mul4, each);
    let named = pairs(rng, |rng| block(rng, Block::Named));
    products("mul4 named gates", &named, mul4, leaf_mul4, each);
    for (name, kind) in
        [("named", Block::Named), ("turned", Block::Turned), ("matchgate", Block::Matchgate)]
    {
        let us: Vec<Flat4> = (0..CALLS).map(|_| block(rng, kind)).collect();
        blocks(name, &us, each);
    }
    let us: Vec<Flat4> = (0..CALLS).map(|_| matrix(rng, Kind::Dense)).collect();
    blocks("dense", &us, each);
}

/// Roots that do not depend on each other, and roots of which each takes the result of the one before.
fn roots(rng: &mut Rng, each: Each) {
    let xs: Vec<f64> = (0..ROOTS).map(|_| 4.0 * rng.unit()).collect();
    each(Piece {
        name: "sqrt",
        calls: ROOTS,
        original: &mut || apart(&xs, rust::sqrt),
        port: &mut || apart(&xs, |x| leaf_sqrt(x)),
    });
    each(Piece {
        name: "sqrt in a chain",
        calls: ROOTS,
        original: &mut || chain(&xs, rust::sqrt),
        port: &mut || chain(&xs, |x| leaf_sqrt(x)),
    });
}

fn apart(xs: &[f64], f: impl Fn(f64) -> f64) {
    for &x in xs {
        black_box(f(x));
    }
}

fn chain(xs: &[f64], f: impl Fn(f64) -> f64) {
    black_box(xs.iter().fold(0.0, |last, &x| f(last + x)));
}

/// Maps and classes of the blocks.
fn blocks(name: &str, us: &[Flat4], each: Each) {
    let mut out = [0.0; FLAT4];
    each(Piece {
        name: &format!("majorana_map2 {name}"),
        calls: CALLS,
        original: &mut || {
            for u in us {
                black_box(detect::majorana_map2(mat4(u)));
            }
        },
        port: &mut || {
            for u in us {
                call1(leaf_majorana_map2, u, &mut out);
                black_box(&out);
            }
        },
    });
    for relabel in [true, false] {
        let opts = DetectOptions { tol: TOL, relabel_swaps: relabel, reorder: true };
        each(Piece {
            name: &format!("classify2 {name}{}", if relabel { "" } else { ", no swaps" }),
            calls: CALLS,
            original: &mut || {
                for u in us {
                    black_box(detect::classify2(mat4(u), &opts));
                }
            },
            port: &mut || {
                for u in us {
                    black_box(classify2(relabel, TOL, u, &mut out));
                    black_box(&out);
                }
            },
        });
    }
}

/// Products of the pairs of matrices. Each side has one buffer for its results.
fn products<const N: usize, R>(
    name: &str,
    pairs: &[([f64; N], [f64; N])],
    original: impl Fn(&[f64; N], &[f64; N]) -> R,
    port: Of2,
    each: Each,
) {
    let mut out = [0.0; FLAT4];
    each(Piece {
        name,
        calls: CALLS,
        original: &mut || {
            for (a, b) in pairs {
                let out = original(a, b);
                black_box(&out);
            }
        },
        port: &mut || {
            for (a, b) in pairs {
                call2(port, a, b, &mut out);
                black_box(&out);
            }
        },
    });
}

fn pairs<const N: usize>(
    rng: &mut Rng,
    one: impl Fn(&mut Rng) -> [f64; N],
) -> Vec<([f64; N], [f64; N])> {
    (0..CALLS).map(|_| (one(rng), one(rng))).collect()
}

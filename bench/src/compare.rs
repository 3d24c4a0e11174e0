//! Original and port on the same random operands, bit for bit; all NaNs count as one.

use crate::inputs::{any, block, matrix, root, BLOCKS, KINDS};
use crate::original_side::{self as rust, mat2, mat4, Flat2, Flat4, FLAT2, FLAT4};
use crate::port::*;
use oracle::bits::{all_same, texts};
use oracle::rng::Rng;
use oracle::tape::entries;
use original::access::detect::access as detect;
use original::access::detect::access::Kind;
use original::access::detect::DetectOptions;
use original::Complex64;

/// The original's tolerance.
const TOL: f64 = 1e-10;

/// One comparison: its name, and what is told of it.
pub struct Tally {
    name: &'static str,
    compared: usize,
    differ: usize,
}

impl Tally {
    pub fn new(name: &'static str) -> Tally {
        Tally { name, compared: 0, differ: 0 }
    }

    /// Counts one call; the first that differs is printed.
    pub fn add(&mut self, operands: &[&[f64]], want: &[f64], got: &[f64]) {
        self.count(all_same(want, got), || {
            let operands = texts(&operands.concat());
            format!("{operands}\n  original{}\n  port    {}", texts(want), texts(got))
        });
    }

    /// Counts one call; of the first that is not well, what is told is printed.
    pub fn count(&mut self, well: bool, told: impl Fn() -> String) {
        self.compared += 1;
        if !well && self.differ == 0 {
            println!("{}:{}", self.name, told());
        }
        self.differ += usize::from(!well);
    }

    /// Prints the count; whether something was compared and nothing differed.
    pub fn end(self) -> bool {
        println!("{:<12} {} compared, {} differ", self.name, self.compared, self.differ);
        self.compared > 0 && self.differ == 0
    }

    /// Prints every count; whether all are well.
    pub fn end_all(tallies: impl IntoIterator<Item = Tally>) -> bool {
        tallies.into_iter().map(Tally::end).fold(true, |all, well| all & well)
    }
}

/// Compares every function, `count` roots and as many of each of the others as `others` says.
pub fn compare(seed: u64, count: usize, others: usize) -> bool {
    let rng = &mut Rng::new(seed);
    let ends = [
        roots(rng, count),
        scalars(rng, others),
        of_two("mul2", rng, others, leaf_mul2, |a, b| entries(&detect::mul2(mat2(a), mat2(b)))),
        of_two("kron", rng, others, leaf_kron, |a, b| entries(&detect::kron(mat2(a), mat2(b)))),
        of_two("mul4", rng, others, leaf_mul4, |a, b| entries(&detect::mul4(mat4(a), mat4(b)))),
        of_one("dag2", rng, others, leaf_dag2, |a: &Flat2| entries(&detect::dag2(mat2(a)))),
        of_one("dag4", rng, others, leaf_dag4, |a: &Flat4| entries(&detect::dag4(mat4(a)))),
        of_one("swap_qubits", rng, others, leaf_swap_qubits, |a: &Flat4| {
            entries(&detect::swap_qubits(mat4(a)))
        }),
        of_one("map1", rng, others, leaf_majorana_map1, |u: &Flat2| {
            flat(FLAT2, detect::majorana_map1(mat2(u)))
        }),
        of_one("map2", rng, others, leaf_majorana_map2, |u: &Flat4| {
            flat(FLAT4, detect::majorana_map2(mat4(u)))
        }),
        classes(rng, others),
        crate::states::compare(rng, others),
        lengths(),
    ];
    ends.iter().all(|&well| well)
}

fn roots(rng: &mut Rng, count: usize) -> bool {
    let mut tally = Tally::new("sqrt");
    for _ in 0..count {
        let x = root(rng);
        tally.add(&[&[x]], &[rust::sqrt(x)], &[leaf_sqrt(x)]);
    }
    tally.end()
}

fn scalars(rng: &mut Rng, count: usize) -> bool {
    let names = ["abs", "max", "min", "clamp", "from_bits", "to_bits"];
    let mut tallies = names.map(Tally::new);
    let [abs, max, min, clamp, from_bits, to_bits] = &mut tallies;
    for _ in 0..count {
        let (x, y) = (any(rng), any(rng));
        abs.add(&[&[x]], &[x.abs()], &[leaf_abs(x)]);
        max.add(&[&[x, y]], &[rust::max(x, y)], &[leaf_max(x, y)]);
        min.add(&[&[x, y]], &[rust::min(x, y)], &[leaf_min(x, y)]);
        from_bits.add(&[&[x]], &[x], &[leaf_from_bits(x.to_bits())]);
        to_bits.add(&[&[x]], &[x], &[f64::from_bits(leaf_to_bits(x))]);
        let (lo, hi) = (any(rng), any(rng));
        if lo <= hi {
            clamp.add(&[&[x, lo, hi]], &[x.clamp(lo, hi)], &[leaf_clamp(x, lo, hi)]);
        }
    }
    Tally::end_all(tallies)
}

fn of_two<const N: usize>(
    name: &'static str,
    rng: &mut Rng,
    count: usize,
    port: Of2,
    original: impl Fn(&[f64; N], &[f64; N]) -> Vec<f64>,
) -> bool {
    let mut tally = Tally::new(name);
    for _ in 0..count {
        let (kind_a, kind_b) = (rng.pick(&KINDS), rng.pick(&KINDS));
        let (a, b) = (matrix(rng, kind_a), matrix(rng, kind_b));
        let want = original(&a, &b);
        let mut got = vec![0.0; want.len()];
        call2(port, &a, &b, &mut got);
        tally.add(&[&a, &b], &want, &got);
    }
    tally.end()
}

fn of_one<const N: usize>(
    name: &'static str,
    rng: &mut Rng,
    count: usize,
    port: Of1,
    original: impl Fn(&[f64; N]) -> Vec<f64>,
) -> bool {
    let mut tally = Tally::new(name);
    for _ in 0..count {
        let kind = rng.pick(&KINDS);
        let a = matrix(rng, kind);
        let want = original(&a);
        let mut got = vec![0.0; want.len()];
        call1(port, &a, &mut got);
        tally.add(&[&a], &want, &got);
    }
    tally.end()
}

/// A map by rows and its residual, then zeros.
fn flat<const K: usize>(len: usize, (q, residual): detect::Mapped<K>) -> Vec<f64> {
    let mut all = q.concat();
    all.push(residual);
    all.resize(len, 0.0);
    all
}

/// The places of the diagonal of u, and of SWAP · u.
const DIAGONALS: [[usize; 4]; 2] = [[0, 5, 10, 15], [0, 9, 6, 15]];

/// Nothing but these entries is left of u, and their interaction phase w is zero or no finite number. There port and original differ: where
/// w is not above zero the phase counts, while the original takes the angle of a zero to be zero.
fn lacks_phase(u: &Flat4, diagonal: [usize; 4]) -> bool {
    let entry = |k: usize| Complex64::new(u[2 * k], u[2 * k + 1]);
    let rest: f64 = (0..16).filter(|k| !diagonal.contains(k)).map(|k| entry(k).norm_sqr()).sum();
    let [d0, d1, d2, d3] = diagonal.map(entry);
    let w = (d0 * d3) * (d1 * d2).conj();
    rest.sqrt() <= TOL && !(w.norm() > 0.0 && w.re.is_finite() && w.im.is_finite())
}

/// Classes of blocks and of other matrices, with and without relabelling: kind, swap, residual and matrix. Of the other matrices those
/// that passed an off-diagonal test are compared unless they lack a phase.
fn classes(rng: &mut Rng, count: usize) -> bool {
    let mut tally = Tally::new("classify2");
    for i in 0..count {
        let relabel = rng.chance(1, 2);
        let is_block = i % 2 == 0;
        let u: Flat4 = if is_block {
            let kind = rng.pick(&BLOCKS);
            block(rng, kind)
        } else {
            let kind = rng.pick(&KINDS);
            matrix(rng, kind)
        };
        let mut got = vec![0.0; FLAT4];
        let code = classify2(relabel, TOL, &u, &mut got);
        if code >= 8 && DIAGONALS.into_iter().any(|places| lacks_phase(&u, places)) {
            continue;
        }
        got.extend([f64::from(code % 8), class_residual(relabel, TOL, &u)]);
        let opts = DetectOptions { tol: TOL, relabel_swaps: relabel, reorder: true };
        let class = detect::classify2(mat4(&u), &opts);
        let kind = match class.kind {
            Kind::Diag => u8::from(class.g.abs() > TOL),
            Kind::Match => 2,
            Kind::NonGaussian => 3,
        };
        let mut want = entries(&class.v);
        want.extend([f64::from(kind + 4 * u8::from(class.swap)), class.residual]);
        tally.add(&[&u], &want, &got);
    }
    tally.end()
}

/// Nothing is written to a slice that is too short, and nothing beyond the
/// result to one that is longer. The slice is part of a longer one, so that a
/// wrong call shows and does no harm.
fn lengths() -> bool {
    let mut tally = Tally::new("lengths");
    let operand = [1.0; FLAT4];
    let of_two: [(Of2, usize, usize); 3] =
        [(leaf_mul2, FLAT2, FLAT2), (leaf_kron, FLAT2, FLAT4), (leaf_mul4, FLAT4, FLAT4)];
    for (f, len, result) in of_two {
        let a = &operand[..len];
        kept(&mut tally, result, |out| call2(f, a, a, out));
    }
    let of_one: [(Of1, usize); 5] = [
        (leaf_dag2, FLAT2),
        (leaf_dag4, FLAT4),
        (leaf_swap_qubits, FLAT4),
        (leaf_majorana_map1, FLAT2),
        (leaf_majorana_map2, FLAT4),
    ];
    for (f, len) in of_one {
        kept(&mut tally, len, |out| call1(f, &operand[..len], out));
    }
    kept(&mut tally, FLAT4, |out| {
        classify2(true, TOL, &operand, out);
    });
    tally.end()
}

/// Calls with every length up to a few places too many; the other places must keep their values.
fn kept(tally: &mut Tally, result: usize, call: impl Fn(&mut [f64])) {
    const OLD: [f64; 2 * FLAT4] = [7.0; 2 * FLAT4];
    for length in 0..result + 4 {
        let mut buffer = OLD;
        call(&mut buffer[..length]);
        let written = if length < result { 0 } else { result };
        tally.add(&[], &OLD[written..], &buffer[written..]);
    }
}

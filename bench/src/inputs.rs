//! Random operands of every kind that a float has.

use crate::original_side::Flat4;
use oracle::rng::Rng;
use oracle::tape::{entries, NAMED2};
use original::access::detect::access as detect;
use original::gate::{Gate, Mat2, Mat4};
use original::Complex64;

const POSITIVE: u64 = u64::MAX >> 1;

/// An operand of a root: random bits, subnormal numbers, and numbers beside
/// powers of two, beside squares and beside middles of neighbouring roots.
pub fn root(rng: &mut Rng) -> f64 {
    let up = rng.below(7) as u64;
    match rng.below(8) {
        0 => f64::from_bits(rng.word()),
        1 => f64::from_bits(rng.word() >> rng.between(12, 63)),
        2 => beside(up, f64::from_bits(rng.word() & 0x7ff0_0000_0000_0000)),
        3 => {
            let r = (rng.word() >> rng.between(38, 60)) as f64;
            beside(up, r * r)
        }
        4 => {
            let r = (1 << 52 | rng.word() >> 12) as f64;
            beside(up, r * r + r)
        }
        5 => rng.unit(),
        _ => f64::from_bits(rng.word() & POSITIVE),
    }
}

/// A few patterns up or down.
fn beside(up: u64, x: f64) -> f64 {
    f64::from_bits(x.to_bits().wrapping_add(up).wrapping_sub(3))
}

/// Random bits, or one of the special values.
pub fn any(rng: &mut Rng) -> f64 {
    match rng.chance(1, 3) {
        true => f64::from_bits(rng.word()),
        false => special(rng),
    }
}

/// Zeros, ones, infinities, NaN, the ends of the ranges.
fn special(rng: &mut Rng) -> f64 {
    let tiny = f64::from_bits(rng.between(1, 3) as u64);
    let kinds =
        [0.0, 1.0, 0.5, f64::INFINITY, f64::NAN, tiny, f64::MIN_POSITIVE, f64::MAX, 1e160, 1e-160];
    let x = rng.pick(&kinds);
    if rng.chance(1, 2) {
        -x
    } else {
        x
    }
}

/// How the entries of a matrix are drawn.
#[derive(Clone, Copy)]
pub enum Kind {
    /// From -1 to 1.
    Dense,
    /// Half of them zeros of either sign, the others from -1 to 1.
    HalfZeros,
    /// Half of them zeros of either sign, the others special values.
    Special,
    /// Random bits.
    Bits,
}

/// All kinds.
pub const KINDS: [Kind; 4] = [Kind::Dense, Kind::HalfZeros, Kind::Special, Kind::Bits];

/// A matrix of one kind, as entries row by row, real before imaginary.
pub fn matrix<const N: usize>(rng: &mut Rng, kind: Kind) -> [f64; N] {
    let mut out = [0.0; N];
    for entry in out.chunks_mut(2) {
        let zero = matches!(kind, Kind::HalfZeros | Kind::Special) && rng.chance(1, 2);
        for x in entry {
            *x = match kind {
                _ if zero => rng.pick(&[0.0, -0.0]),
                Kind::Dense | Kind::HalfZeros => 2.0 * rng.unit() - 1.0,
                Kind::Special => special(rng),
                Kind::Bits => f64::from_bits(rng.word()),
            };
        }
    }
    out
}

/// A two-qubit block of a circuit.
#[derive(Clone, Copy)]
pub enum Block {
    /// A named gate.
    Named,
    /// Two named gates with a turn of each qubit between them: no zeros, as a rule.
    Turned,
    /// A matchgate with random angles.
    Matchgate,
}

/// All of them.
pub const BLOCKS: [Block; 3] = [Block::Named, Block::Turned, Block::Matchgate];

pub fn block(rng: &mut Rng, kind: Block) -> Flat4 {
    let m = match kind {
        Block::Named => named(rng),
        Block::Turned => {
            let turns = detect::kron(&turn(rng), &turn(rng));
            detect::mul4(&named(rng), &detect::mul4(&turns, &named(rng)))
        }
        Block::Matchgate => {
            let [[a, b], [c, d]] = turn(rng);
            let [[e, f], [g, h]] = turn(rng);
            let z = Complex64::new(0.0, 0.0);
            [[a, z, z, b], [z, e, f, z], [z, g, h, z], [c, z, z, d]]
        }
    };
    entries(&m).try_into().expect("a 4 by 4 matrix")
}

/// The matrix of a named two-qubit gate.
fn named(rng: &mut Rng) -> Mat4 {
    let (_, gate) = rng.pick(&NAMED2);
    gate.matrix_2q().expect("a two-qubit gate")
}

/// A turn of one qubit about a random axis.
fn turn(rng: &mut Rng) -> Mat2 {
    let mut angle = || 6.3 * rng.unit();
    let (a, b) = (angle(), angle());
    let first = Gate::Rz(0, a).matrix_1q().expect("one qubit");
    let second = Gate::Rx(0, b).matrix_1q().expect("one qubit");
    let third = Gate::Rz(0, angle()).matrix_1q().expect("one qubit");
    detect::mul2(&third, &detect::mul2(&second, &first))
}

//! Two-qubit blocks written out in gates.

use crate::rng::Rng;
use original::access::detect::access as detect;
use original::gate::{Gate, Mat4};
use std::f64::consts::PI;

/// Gates that fuse to one block on a pair of qubits.
pub struct Piece {
    pub gates: Vec<Gate>,
    /// The block is a swap times a block: with relabelling it exchanges the wires.
    pub swaps: bool,
}

impl Piece {
    /// A block that leaves the wires where they are.
    pub fn still(gates: Vec<Gate>) -> Piece {
        Piece { gates, swaps: false }
    }

    /// The block followed by a swap, written as three controlled flips.
    pub fn swapped(mut self, a: usize, b: usize) -> Piece {
        self.gates.extend(swap(a, b));
        self.swaps = !self.swaps;
        self
    }
}

fn swap(a: usize, b: usize) -> [Gate; 3] {
    [Gate::Cnot(a, b), Gate::Cnot(b, a), Gate::Cnot(a, b)]
}

/// The rotation by XX.
pub fn xx(a: usize, b: usize, t: f64) -> Vec<Gate> {
    vec![Gate::Cnot(a, b), Gate::Rx(a, t), Gate::Cnot(a, b)]
}

/// The quarter turn by XX: a signed permutation of the Majorana operators.
pub fn quarter(a: usize, b: usize) -> Vec<Gate> {
    vec![Gate::Cnot(a, b), Gate::Sx(a), Gate::Cnot(a, b)]
}

/// The rotation by YY.
fn yy(a: usize, b: usize, t: f64) -> Vec<Gate> {
    let mut out = vec![Gate::Sdg(a), Gate::Sdg(b)];
    out.extend(xx(a, b, t));
    out.extend([Gate::S(a), Gate::S(b)]);
    out
}

/// The rotation by ZZ: diagonal, with an interaction phase.
pub fn zz(a: usize, b: usize, t: f64) -> Vec<Gate> {
    vec![Gate::Cnot(a, b), Gate::Rz(b, t), Gate::Cnot(a, b)]
}

/// The angle of a rotation: any, or one of a few for which entries of the
/// covariance are equal but for the sign.
fn rotation_angle(rng: &mut Rng) -> f64 {
    match rng.chance(1, 3) {
        true => rng.pick(&[PI / 4.0, -PI / 4.0, 3.0 * PI / 4.0, PI / 3.0, -2.0 * PI / 3.0]),
        false => rng.angle(),
    }
}

/// A matchgate that is not diagonal, or with `swaps` perhaps a swap times one.
/// An iswap stays alone: times a swap it would be diagonal.
pub fn matchgate(rng: &mut Rng, a: usize, b: usize, swaps: bool) -> Piece {
    let (t, s) = (rotation_angle(rng), rotation_angle(rng));
    let gates = match rng.below(8) {
        0 => return Piece::still(vec![Gate::ISwap(a, b)]),
        1 => return Piece::still(vec![Gate::ISwapdg(a, b)]),
        2 => yy(a, b, t),
        3 => [xx(a, b, t), yy(a, b, s)].concat(),
        // parity-odd: a flip between two rotations
        4 => [vec![Gate::ISwap(a, b), Gate::X(a)], xx(b, a, t)].concat(),
        5 => [xx(a, b, t), vec![Gate::Y(b), Gate::ISwap(b, a), Gate::Rz(a, s)]].concat(),
        _ => xx(a, b, t),
    };
    perhaps_swapped(rng, a, b, swaps, gates)
}

/// A diagonal block, or a swap times one, without interaction phase. It may join any two wires.
pub fn free_diagonal(rng: &mut Rng, a: usize, b: usize, swaps: bool) -> Piece {
    let t = rng.angle();
    let gates = match rng.below(8) {
        0 => vec![Gate::Cz(a, b), Gate::Cz(b, a)],
        1 => vec![Gate::ISwap(a, b), Gate::ISwap(a, b)],
        2 => vec![Gate::ISwap(a, b), Gate::ISwapdg(b, a)],
        3 => vec![Gate::CPhase(a, b, t), Gate::T(a), Gate::CPhase(a, b, -t)],
        4 => [xx(a, b, t), xx(b, a, -t)].concat(),
        5 => vec![Gate::CPhase(a, b, 2.0 * PI), Gate::Rz(b, t)],
        6 => vec![Gate::CPhase(a, b, t), Gate::CPhase(b, a, -t)],
        _ => [zz(a, b, t), vec![Gate::Phase(a, t), Gate::CPhase(a, b, 2.0 * t)]].concat(),
    };
    perhaps_swapped(rng, a, b, swaps, gates)
}

/// A diagonal block with an interaction phase, or a swap times one.
pub fn interaction(rng: &mut Rng, a: usize, b: usize, swaps: bool) -> Piece {
    let t = rng.angle();
    let gates = match rng.below(3) {
        0 => vec![Gate::CPhase(a, b, t)],
        1 => zz(a, b, t),
        _ => vec![Gate::ISwap(a, b), Gate::CPhase(a, b, t), Gate::ISwap(a, b)],
    };
    perhaps_swapped(rng, a, b, swaps, gates)
}

/// One block in four is times a swap, if `swaps` allows it.
fn perhaps_swapped(rng: &mut Rng, a: usize, b: usize, swaps: bool, gates: Vec<Gate>) -> Piece {
    let piece = Piece::still(gates);
    if swaps && rng.chance(1, 4) {
        piece.swapped(a, b)
    } else {
        piece
    }
}

/// A phase: diagonal blocks stay diagonal beside it.
pub fn phase(rng: &mut Rng, q: usize) -> Gate {
    let t = rng.angle();
    match rng.below(8) {
        0 => Gate::I(q),
        1 => Gate::Z(q),
        2 => Gate::S(q),
        3 => Gate::Sdg(q),
        4 => Gate::T(q),
        5 => Gate::Tdg(q),
        6 => Gate::Rz(q, t),
        _ => Gate::Phase(q, t),
    }
}

/// A phase or a flip: matchgates stay matchgates beside it.
pub fn phase_or_flip(rng: &mut Rng, q: usize) -> Gate {
    match rng.below(6) {
        0 => Gate::X(q),
        1 => Gate::Y(q),
        2 => Gate::Rx(q, PI),
        _ => phase(rng, q),
    }
}

/// The matrix of gates on qubits 0 and 1, applied in their order.
pub fn matrix(gates: &[Gate]) -> Mat4 {
    let identity = Gate::I(0).matrix_1q().expect("a one-qubit gate");
    let of = |g: &Gate| match (g.matrix_1q(), g.qubits()[0]) {
        (Some(u), 0) => detect::kron(&u, &identity),
        (Some(u), _) => detect::kron(&identity, &u),
        (None, 0) => g.matrix_2q().expect("a two-qubit gate"),
        (None, _) => detect::swap_qubits(&g.matrix_2q().expect("a two-qubit gate")),
    };
    let mut all = gates.iter().map(of);
    let first = all.next().expect("at least one gate");
    all.fold(first, |acc, u| detect::mul4(&u, &acc))
}

//! Random gates, made as products: matchgates, and others.

use super::matrix::{kron, of, swap, Matrix, Unitary};
use super::number::Number;
use crate::rng::Rng;

/// Factors of a product at most.
const FACTORS: usize = 7;
/// Of quarter turns one in so many.
const QUARTERS: usize = 8;

/// I, X, Y, Z.
pub fn pauli<N: Number>(which: usize) -> Matrix<N, 2> {
    let (o, l, i) = (N::ZERO, N::ONE, N::I);
    [[[l, o], [o, l]], [[o, l], [l, o]], [[o, -i], [i, o]], [[l, o], [o, -l]]][which]
}

const X: usize = 1;
const Y: usize = 2;
const Z: usize = 3;
/// The pairs of them that generate the matchgates of two neighbours.
const GENERATORS: [[usize; 2]; 6] = [[Z, 0], [0, Z], [X, X], [Y, Y], [X, Y], [Y, X]];

/// Cosine and sine, those of no turn and of quarter turns among them.
fn angle<N: Number>(rng: &mut Rng) -> [N; 2] {
    let (o, l) = (N::ZERO, N::ONE);
    match rng.chance(1, QUARTERS) {
        true => rng.pick(&[[l, o], [o, l], [-l, o], [o, -l]]),
        false => N::angle(rng),
    }
}

/// Cosine minus i times sine times a matrix whose square is 1.
fn turn<N: Number, const W: usize>([cos, sin]: [N; 2], a: &Matrix<N, W>) -> Unitary<N, W> {
    let with = |i: N| of(|r, c| if r == c { cos + i * sin * a[r][c] } else { i * sin * a[r][c] });
    Unitary { matrix: with(-N::I), inverse: with(N::I) }
}

/// Cosine plus i times sine, along the diagonal.
fn diagonal<N: Number, const W: usize>(angles: [[N; 2]; W]) -> Unitary<N, W> {
    let with = |i: N| {
        let entry = |k: usize| angles[k][0] + i * angles[k][1];
        of(|r, c| if r == c { entry(r) } else { N::ZERO })
    };
    Unitary { matrix: with(N::I), inverse: with(-N::I) }
}

const fn none<N: Number>() -> [N; 2] {
    [N::ONE, N::ZERO]
}

fn product<N: Number, const W: usize>(
    rng: &mut Rng,
    factor: fn(&mut Rng) -> Unitary<N, W>,
) -> Unitary<N, W> {
    (0..rng.between(1, FACTORS)).fold(Unitary::identity(), |all, _| all.then(&factor(rng)))
}

/// A matchgate of one qubit: a product of phases, of turns about Z, of X and Y.
pub fn matchgate2<N: Number>(rng: &mut Rng) -> Unitary<N, 2> {
    product(rng, |rng| match rng.below(4) {
        0 => diagonal([none(), angle(rng)]),
        1 => turn(angle(rng), &pauli(Z)),
        2 => turn(angle(rng), &pauli(0)),
        _ => Unitary::own_inverse(pauli(rng.pick(&[X, Y]))),
    })
}

/// A matchgate of two neighbours: turns about `GENERATORS`, matchgates of one of them, phases, exchanges of the two modes.
pub fn matchgate4<N: Number>(rng: &mut Rng) -> Unitary<N, 4> {
    product(rng, |rng| match rng.below(12) {
        0 => turn(angle(rng), &kron(&pauli(0), &pauli(0))),
        1 => Unitary::own_inverse(fermions_exchanged()),
        2 => {
            let iswap = of(|r, c| swap::<N>()[r][c] * if r % 3 == 0 { N::ONE } else { N::I });
            Unitary { matrix: iswap, inverse: of(|r, c| iswap[r][c] * iswap[r][c] * iswap[r][c]) }
        }
        3 | 4 => Unitary::own_inverse(pauli(rng.pick(&[X, Y]))).on(rng.chance(1, 2)),
        5 => diagonal([none(), angle(rng)]).on(rng.chance(1, 2)),
        _ => {
            let [p, q] = rng.pick(&GENERATORS);
            turn(angle(rng), &kron(&pauli(p), &pauli(q)))
        }
    })
}

/// Swap, and -1 where both qubits are 1.
fn fermions_exchanged<N: Number>() -> Matrix<N, 4> {
    let swap = swap::<N>();
    of(|r, c| if r == 3 { -swap[r][c] } else { swap[r][c] })
}

/// Any gate of one qubit: a product of turns about all axes, and of reflections such as H.
pub fn any2<N: Number>(rng: &mut Rng) -> Unitary<N, 2> {
    product(rng, |rng| match rng.below(4) {
        0 => {
            let [c, s] = angle(rng);
            Unitary::own_inverse([[c, s], [s, -c]])
        }
        axis => turn(angle(rng), &pauli(axis)),
    })
}

/// Any gate of two qubits: a product of turns about all pairs of axes, controlled flips and phases, swaps, gates of one of them.
pub fn any4<N: Number>(rng: &mut Rng) -> Unitary<N, 4> {
    product(rng, |rng| match rng.below(8) {
        0 => Unitary::own_inverse(cnot()),
        1 => Unitary::own_inverse(exchanged_cnot()),
        2 => interaction(rng),
        3 => Unitary::own_inverse(swap()),
        4 | 5 => any2(rng).on(rng.chance(1, 2)),
        _ => turn(angle(rng), &kron(&pauli(rng.below(4)), &pauli(rng.below(4)))),
    })
}

fn cnot<N: Number>() -> Matrix<N, 4> {
    of(|r, c| if r == [0, 1, 3, 2][c] { N::ONE } else { N::ZERO })
}

fn exchanged_cnot<N: Number>() -> Matrix<N, 4> {
    super::matrix::exchanged(&cnot())
}

/// A phase where both qubits are 1.
pub fn interaction<N: Number>(rng: &mut Rng) -> Unitary<N, 4> {
    diagonal([none(), none(), none(), N::angle(rng)])
}

/// A gate of two qubits, and whether it was made as a matchgate; others differ from matchgates by as little as a phase or a swap.
pub fn nearly<N: Number>(rng: &mut Rng) -> (bool, Unitary<N, 4>) {
    let (u, swap) = (matchgate4(rng), Unitary::own_inverse(swap()));
    match rng.below(7) {
        0..3 => (true, u),
        3 => (false, u.then(&interaction(rng)).then(&matchgate4(rng))),
        4 => (false, u.then(&swap).then(&matchgate4(rng))),
        5 => {
            let diagonal = diagonal([angle(rng), angle(rng), angle(rng), angle(rng)]);
            (false, if rng.chance(1, 2) { diagonal } else { diagonal.then(&swap) })
        }
        _ => (false, any4(rng)),
    }
}

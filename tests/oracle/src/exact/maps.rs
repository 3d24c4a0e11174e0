//! What a gate's matrix makes of the Majorana operators of its own modes, and what is left over: the engine's formula.

use super::gates::pauli;
use super::matrix::{kron, of, times, Matrix, Unitary};
use super::number::{sum, Field};

/// The part of U* c_a U in c_b is Q_ab.
pub struct Map<N, const W: usize> {
    pub q: Matrix<N, W>,
    /// Nothing is left over.
    pub whole: bool,
}

pub fn of_one<N: Field>(u: &Unitary<N, 2>) -> Map<N, 2> {
    map(u, &[pauli(1), pauli(2)], N::HALF)
}

/// Of two modes, the first of which is the first qubit of the matrix.
pub fn of_two<N: Field>(u: &Unitary<N, 4>) -> Map<N, 4> {
    let [one, x, y, z] = [0, 1, 2, 3].map(pauli);
    let own = [kron(&x, &one), kron(&y, &one), kron(&z, &x), kron(&z, &y)];
    map(u, &own, N::HALF * N::HALF)
}

/// Half or a quarter of the trace of c_b times U* c_a U, its real part.
fn map<N: Field, const W: usize>(u: &Unitary<N, W>, own: &[Matrix<N, W>; W], part: N) -> Map<N, W> {
    let back = adjoint(u);
    let images: [Matrix<N, W>; W] =
        std::array::from_fn(|a| times(&back, &times(&own[a], &u.matrix)));
    let trace = |a: &Matrix<N, W>, b: &Matrix<N, W>| {
        sum((0..W).map(|k| sum((0..W).map(|l| a[k][l] * b[l][k]))))
    };
    let q = of(|a, b| trace(&own[b], &images[a]).real() * part);
    let whole = (0..W).all(|a| {
        let made = |r: usize, c: usize| sum((0..W).map(|b| q[a][b] * own[b][r][c]));
        images[a] == of(made)
    });
    Map { q, whole }
}

/// The conjugate of the transposed matrix; where numbers have no conjugates, the matrix that undoes it.
fn adjoint<N: Field, const W: usize>(u: &Unitary<N, W>) -> Matrix<N, W> {
    of(|r, c| u.matrix[c][r].conjugate().unwrap_or(u.inverse[r][c]))
}

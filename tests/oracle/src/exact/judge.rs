//! Whether a matrix is a matchgate, by the determinants of its two halves: no Majorana operator is asked. What counts as zero is for the caller to say.

use super::matrix::{kron, times, Matrix};
use super::number::Number;

/// Of one qubit: it keeps 0 and 1 apart, or turns each into the other.
pub fn of_one<N: Number>(u: &Matrix<N, 2>, zero: impl Fn(N) -> bool) -> bool {
    let zeros = |places: [[usize; 2]; 2]| places.iter().all(|&[r, c]| zero(u[r][c]));
    zeros([[0, 1], [1, 0]]) || zeros([[0, 0], [1, 1]])
}

/// Of two qubits: it keeps even and odd numbers of ones apart, and both halves have one determinant; or a flip of the first qubit makes it so.
pub fn of_two<N: Number>(u: &Matrix<N, 4>, zero: impl Fn(N) -> bool) -> bool {
    let (o, l) = (N::ZERO, N::ONE);
    let flip = kron(&[[o, l], [l, o]], &[[l, o], [o, l]]);
    even(u, &zero) || even(&times(&flip, u), &zero)
}

fn even<N: Number>(u: &Matrix<N, 4>, zero: impl Fn(N) -> bool) -> bool {
    let half = |[a, b]: [usize; 2]| u[a][a] * u[b][b] - u[a][b] * u[b][a];
    let (even, odd) = ([0, 3], [1, 2]);
    let apart = even.iter().all(|&r| odd.iter().all(|&c| zero(u[r][c]) && zero(u[c][r])));
    apart && zero(half(even) - half(odd))
}

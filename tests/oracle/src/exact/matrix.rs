//! Matrices on one qubit and on two; of two the first qubit is the high bit of an index.

use super::number::{sum, Number};
use std::array::from_fn;
use std::fmt;

pub type Matrix<N, const W: usize> = [[N; W]; W];

/// A matrix with the one that undoes it.
#[derive(Clone, Copy, PartialEq)]
pub struct Unitary<N, const W: usize> {
    pub matrix: Matrix<N, W>,
    pub inverse: Matrix<N, W>,
}

pub fn of<N, const W: usize>(entry: impl Fn(usize, usize) -> N) -> Matrix<N, W> {
    from_fn(|r| from_fn(|c| entry(r, c)))
}

pub fn identity<N: Number, const W: usize>() -> Matrix<N, W> {
    of(|r, c| if r == c { N::ONE } else { N::ZERO })
}

pub fn times<N: Number, const W: usize>(a: &Matrix<N, W>, b: &Matrix<N, W>) -> Matrix<N, W> {
    of(|r, c| sum((0..W).map(|k| a[r][k] * b[k][c])))
}

/// One matrix on the first qubit, another one on the second.
pub fn kron<N: Number>(a: &Matrix<N, 2>, b: &Matrix<N, 2>) -> Matrix<N, 4> {
    of(|r, c| a[r / 2][c / 2] * b[r % 2][c % 2])
}

/// The matrix on the same qubits, the second one named first.
pub fn exchanged<N: Number>(a: &Matrix<N, 4>) -> Matrix<N, 4> {
    let other = |k: usize| [0, 2, 1, 3][k];
    of(|r, c| a[other(r)][other(c)])
}

/// The exchange of the two qubits.
pub fn swap<N: Number>() -> Matrix<N, 4> {
    of(|r, c| if r == [0, 2, 1, 3][c] { N::ONE } else { N::ZERO })
}

impl<N: Number, const W: usize> Unitary<N, W> {
    pub fn identity() -> Self {
        Unitary::own_inverse(identity())
    }

    /// Of a matrix that undoes itself.
    pub fn own_inverse(matrix: Matrix<N, W>) -> Self {
        Unitary { matrix, inverse: matrix }
    }

    /// This one first, then the other.
    pub fn then(&self, later: &Self) -> Self {
        Unitary {
            matrix: times(&later.matrix, &self.matrix),
            inverse: times(&self.inverse, &later.inverse),
        }
    }

    pub fn undone(&self) -> Self {
        Unitary { matrix: self.inverse, inverse: self.matrix }
    }
}

impl<N: fmt::Debug, const W: usize> fmt::Debug for Unitary<N, W> {
    fn fmt(&self, f: &mut fmt::Formatter<'_>) -> fmt::Result {
        write!(f, "{:?}", self.matrix)
    }
}

impl<N: Number> Unitary<N, 2> {
    /// On the first of two qubits, or on the second.
    pub fn on(&self, second: bool) -> Unitary<N, 4> {
        let one = identity();
        let beside = |a: &Matrix<N, 2>| if second { kron(&one, a) } else { kron(a, &one) };
        Unitary { matrix: beside(&self.matrix), inverse: beside(&self.inverse) }
    }
}

impl<N: Number> Unitary<N, 4> {
    pub fn exchanged(&self) -> Self {
        Unitary { matrix: exchanged(&self.matrix), inverse: exchanged(&self.inverse) }
    }
}

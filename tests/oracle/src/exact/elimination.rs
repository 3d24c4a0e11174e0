//! Determinants and Pfaffians by elimination, as the engine has them: the last of the largest numbers is a determinant's pivot, the first that of
//! a Pfaffian.

use super::matrix::Matrix;
use super::number::Field;

/// The determinant of a map of one mode or two.
pub fn determinant<N: Field, const W: usize>(q: &Matrix<N, W>) -> N {
    if W == 2 {
        return q[0][0] * q[1][1] - q[0][1] * q[1][0];
    }
    let (mut a, mut out) = (*q, N::ONE);
    for k in 0..W {
        let pivot = (k..W).max_by_key(|&r| a[r][k].size()).expect("a row");
        if a[pivot][k] == N::ZERO {
            return N::ZERO;
        }
        if pivot != k {
            a.swap(pivot, k);
            out = -out;
        }
        out = out * a[k][k];
        let over = a[k][k].inverse();
        for r in k + 1..W {
            let factor = a[r][k] * over;
            (k..W).for_each(|c| a[r][c] = a[r][c] - factor * a[k][c]);
        }
    }
    out
}

/// The Pfaffian of an antisymmetric matrix, two rows and columns at a time.
pub fn pfaffian<N: Field>(mut a: Vec<Vec<N>>) -> N {
    let (dim, mut out) = (a.len(), N::ONE);
    for k in (0..dim).step_by(2) {
        let first = (k + 1..dim).rev().max_by_key(|&c| a[k][c].size());
        let Some(pivot) = first.filter(|&c| a[k][c] != N::ZERO) else { return N::ZERO };
        if pivot != k + 1 {
            a.swap(pivot, k + 1);
            a.iter_mut().for_each(|row| row.swap(pivot, k + 1));
            out = -out;
        }
        out = out * a[k][k + 1];
        let over = a[k][k + 1].inverse();
        for r in k + 2..dim {
            for c in k + 2..dim {
                let [t, s] = [a[k][r], a[k][c]].map(|x| x * over);
                a[r][c] = a[r][c] - t * a[k + 1][c] + s * a[k + 1][r];
            }
        }
    }
    out
}

//! The engine's state: a covariance of which some signs are postponed, and what a map does to it; with a fault if one is asked for.

use super::elimination::determinant;
use super::matrix::Matrix;
use super::number::{sum, Field};

#[derive(Clone, Copy, Debug, PartialEq)]
pub enum Fault {
    None,
    /// Later modes never turn.
    NoTurn,
    /// The map's own modes turn too.
    Own,
    /// Of later modes the next one alone turns.
    Next,
    /// The signs of the map's own modes are not settled first.
    Unsettled,
}

/// The wrong engines.
pub const FAULTS: [Fault; 4] = [Fault::NoTurn, Fault::Own, Fault::Next, Fault::Unsettled];

pub struct State<N> {
    /// A row and a column for each Majorana operator, two to a mode.
    m: Vec<Vec<N>>,
    /// 1, or -1: the true entry is that of m, times the sign of its row and that of its column.
    d: Vec<N>,
    fault: Fault,
}

impl<N: Field> State<N> {
    /// The vacuum of n modes.
    pub fn vacuum(n: usize, fault: Fault) -> Self {
        let mut m = vec![vec![N::ZERO; 2 * n]; 2 * n];
        for k in (0..2 * n).step_by(2) {
            (m[k][k + 1], m[k + 1][k]) = (N::ONE, -N::ONE);
        }
        State { m, d: vec![N::ONE; 2 * n], fault }
    }

    /// The true entry.
    pub fn entry(&self, row: usize, column: usize) -> N {
        self.m[row][column] * self.d[row] * self.d[column]
    }

    pub fn covariance(&self) -> Vec<Vec<N>> {
        let dim = self.d.len();
        (0..dim).map(|r| (0..dim).map(|c| self.entry(r, c)).collect()).collect()
    }

    /// A map on the operators from the first one of a mode on.
    pub fn apply<const W: usize>(&mut self, mode: usize, q: &Matrix<N, W>) {
        let (first, behind) = (2 * mode, 2 * mode + W);
        if self.fault != Fault::Unsettled {
            (first..behind).for_each(|k| self.settle(k));
        }
        self.rows(first, q);
        self.columns(first, q);
        if determinant(q) == -N::ONE {
            let turned = match self.fault {
                Fault::NoTurn => 0..0,
                Fault::Own => first..self.d.len(),
                Fault::Next => behind..self.d.len().min(behind + 2),
                _ => behind..self.d.len(),
            };
            self.d[turned].iter_mut().for_each(|sign| *sign = -*sign);
        }
    }

    /// The sign of an operator goes into the matrix.
    fn settle(&mut self, k: usize) {
        if self.d[k] == -N::ONE {
            self.m[k].iter_mut().for_each(|x| *x = -*x);
            self.m.iter_mut().for_each(|row| row[k] = -row[k]);
            self.d[k] = N::ONE;
        }
    }

    fn rows<const W: usize>(&mut self, first: usize, q: &Matrix<N, W>) {
        for c in 0..self.d.len() {
            let old: [N; W] = std::array::from_fn(|k| self.m[first + k][c]);
            for (k, row) in q.iter().enumerate() {
                self.m[first + k][c] = sum(row.iter().zip(&old).map(|(&x, &y)| x * y));
            }
        }
    }

    fn columns<const W: usize>(&mut self, first: usize, q: &Matrix<N, W>) {
        for line in &mut self.m {
            let old: [N; W] = std::array::from_fn(|k| line[first + k]);
            for (k, row) in q.iter().enumerate() {
                line[first + k] = sum(row.iter().zip(&old).map(|(&x, &y)| x * y));
            }
        }
    }
}

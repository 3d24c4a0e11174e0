//! What the engine answers from a covariance and a mode table.

use super::elimination::pfaffian;
use super::number::{signed, Field};

/// A covariance, by rows, and the mode of each qubit.
pub struct Asked<'a, N> {
    pub covariance: &'a [Vec<N>],
    pub modes: &'a [usize],
}

impl<N: Field> Asked<'_, N> {
    /// Z of a qubit: an entry.
    pub fn z(&self, qubit: usize) -> N {
        let k = self.modes[qubit];
        self.covariance[2 * k][2 * k + 1]
    }

    /// The product of Z over a list of qubits, of which pairs cancel.
    pub fn product(&self, qubits: &[usize]) -> N {
        let mut left: Vec<usize> = vec![];
        for mode in qubits.iter().map(|&q| self.modes[q]) {
            match left.iter().position(|&other| other == mode) {
                Some(at) => drop(left.remove(at)),
                None => left.push(mode),
            }
        }
        left.sort_unstable();
        pfaffian(self.part(&left, |x| x))
    }

    /// The chance that each listed qubit reads its bit: zero if one is listed with both.
    pub fn marginal(&self, listed: &[(usize, bool)]) -> N {
        let mut left: Vec<(usize, bool)> = vec![];
        for &(q, bit) in listed {
            match left.iter().find(|other| other.0 == self.modes[q]) {
                Some(other) if other.1 != bit => return N::ZERO,
                Some(_) => {}
                None => left.push((self.modes[q], bit)),
            }
        }
        left.sort_unstable();
        let modes: Vec<usize> = left.iter().map(|one| one.0).collect();
        let mut a = self.part(&modes, |x| N::HALF * x);
        for (k, (_, bit)) in left.iter().enumerate() {
            let half = signed(*bit, N::HALF);
            a[2 * k][2 * k + 1] = a[2 * k][2 * k + 1] + half;
            a[2 * k + 1][2 * k] = a[2 * k + 1][2 * k] - half;
        }
        signed(left.iter().filter(|one| one.1).count() % 2 == 1, pfaffian(a))
    }

    /// The chance of a basis index.
    pub fn index(&self, x: usize) -> N {
        let all: Vec<_> = (0..self.modes.len()).map(|q| (q, x >> q & 1 == 1)).collect();
        self.marginal(&all)
    }

    /// The rows and columns of some modes.
    fn part(&self, modes: &[usize], made: impl Fn(N) -> N) -> Vec<Vec<N>> {
        let places: Vec<usize> = modes.iter().flat_map(|k| [2 * k, 2 * k + 1]).collect();
        let row =
            |&r: &usize| places.iter().map(|&c| made(self.covariance[r][c])).collect::<Vec<_>>();
        places.iter().map(row).collect()
    }
}

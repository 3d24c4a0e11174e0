//! Quantum mechanics: a state vector with its dual, <0..0| U^-1 beside U |0..0>. Qubit q is bit q of a basis index. The Majorana operators are
//! those of Jordan and Wigner, applied to the two as they are written; nothing here speaks of maps, determinants or later modes.

use super::lists::{Gate, List, Step};
use super::matrix::{of, Matrix};
use super::number::{signed, sum, Number};

pub struct Vector<N> {
    n: usize,
    ket: Vec<N>,
    bra: Vec<N>,
}

impl<N: Number> Vector<N> {
    /// All zeros.
    fn zeros(n: usize) -> Self {
        let ket: Vec<N> = (0..1 << n).map(|x| if x == 0 { N::ONE } else { N::ZERO }).collect();
        Vector { n, bra: ket.clone(), ket }
    }

    /// The gates of a list, without its interactions.
    pub fn of(list: &List<N>) -> Self {
        let mut v = Vector::zeros(list.n);
        for step in &list.steps {
            match step {
                Step::Block(_, gates) => gates.iter().for_each(|gate| v.apply(gate)),
                Step::Swap(a, b) => v.swap(*a, *b),
                Step::Interaction(..) => {}
            }
        }
        v
    }

    fn apply(&mut self, gate: &Gate<N>) {
        match gate {
            Gate::One(q, u) => {
                multiply(&mut self.ket, &[*q], &u.matrix);
                multiply(&mut self.bra, &[*q], &transposed(&u.inverse));
            }
            Gate::Two(pair, u) => {
                multiply(&mut self.ket, pair, &u.matrix);
                multiply(&mut self.bra, pair, &transposed(&u.inverse));
            }
        }
    }

    fn swap(&mut self, a: usize, b: usize) {
        for x in 0..1usize << self.n {
            if x >> a & 1 == 1 && x >> b & 1 == 0 {
                let y = x ^ (1 << a | 1 << b);
                self.ket.swap(x, y);
                self.bra.swap(x, y);
            }
        }
    }

    /// The chance of a basis index.
    pub fn index(&self, x: usize) -> N {
        self.bra[x] * self.ket[x]
    }

    fn indices(&self) -> std::ops::Range<usize> {
        0..self.ket.len()
    }

    /// Whether the value of 1 is 1, and the dual that of the state where numbers have conjugates.
    pub fn is_state(&self) -> bool {
        let dual = |x: usize| self.ket[x].conjugate().is_none_or(|y| y == self.bra[x]);
        sum(self.indices().map(|x| self.index(x))) == N::ONE && self.indices().all(dual)
    }

    /// The value of the product of Z over a list of qubits.
    pub fn product(&self, qubits: &[usize]) -> N {
        let odd = |x: usize| qubits.iter().filter(|&q| x >> q & 1 == 1).count() % 2 == 1;
        sum(self.indices().map(|x| signed(odd(x), self.index(x))))
    }

    /// The chance that each of the listed qubits reads its bit.
    pub fn marginal(&self, listed: &[(usize, bool)]) -> N {
        let reads = |x: &usize| listed.iter().all(|&(q, bit)| (x >> q & 1 == 1) == bit);
        sum(self.indices().filter(reads).map(|x| self.index(x)))
    }

    /// -i times the value of the product of two Majorana operators, by rows, and zero on the diagonal; `on` has the qubit on each mode.
    pub fn covariance(&self, on: &[usize]) -> Vec<Vec<N>> {
        let all = |right: bool| -> Vec<Vec<N>> {
            (0..2 * self.n).map(|k| self.majorana(on, k, right)).collect()
        };
        let (lefts, rights) = (all(false), all(true));
        let value = |r: usize, c: usize| sum((0..1 << self.n).map(|x| lefts[r][x] * rights[c][x]));
        let entry = |r: usize, c: usize| if r == c { N::ZERO } else { -N::I * value(r, c) };
        (0..2 * self.n).map(|r| (0..2 * self.n).map(|c| entry(r, c)).collect()).collect()
    }

    /// A Majorana operator, two to a mode, times the state on its right; or the state's dual times the operator.
    fn majorana(&self, on: &[usize], number: usize, right: bool) -> Vec<N> {
        let (mode, own) = (number / 2, on[number / 2]);
        let factor = |from: usize| {
            let odd = on[..mode].iter().filter(|&&q| from >> q & 1 == 1).count() % 2 == 1;
            match (number % 2, from >> own & 1) {
                (0, _) => signed(odd, N::ONE),
                (_, 0) => signed(odd, N::I),
                _ => signed(!odd, N::I),
            }
        };
        let flipped = |x: usize| x ^ 1 << own;
        match right {
            true => self.indices().map(|x| factor(flipped(x)) * self.ket[flipped(x)]).collect(),
            false => self.indices().map(|x| self.bra[flipped(x)] * factor(x)).collect(),
        }
    }
}

fn transposed<N: Number, const W: usize>(a: &Matrix<N, W>) -> Matrix<N, W> {
    of(|r, c| a[c][r])
}

/// A matrix times the amplitudes of each setting of the other qubits; the first qubit is the high bit of the matrix.
fn multiply<N: Number, const W: usize>(amplitudes: &mut [N], qubits: &[usize], a: &Matrix<N, W>) {
    let mask: usize = qubits.iter().map(|q| 1 << q).sum();
    let at = |rest: usize, k: usize| {
        let bit = |(place, q): (usize, &usize)| (k >> place & 1) << q;
        rest | qubits.iter().rev().enumerate().map(bit).sum::<usize>()
    };
    for rest in (0..amplitudes.len()).filter(|x| x & mask == 0) {
        let old: [N; W] = std::array::from_fn(|k| amplitudes[at(rest, k)]);
        for (k, row) in a.iter().enumerate() {
            amplitudes[at(rest, k)] = sum(row.iter().zip(&old).map(|(&x, &y)| x * y));
        }
    }
}

//! A shot reads one mode after the other; after each the rest is changed by what was read.

use super::number::{signed, Field};

/// What was read of the first modes, its chance as the engine has it, and the covariance after it.
#[derive(Clone)]
pub struct Reading<N> {
    pub bits: Vec<bool>,
    pub chance: N,
    covariance: Vec<Vec<N>>,
}

impl<N: Field> Reading<N> {
    pub fn start(covariance: &[Vec<N>]) -> Self {
        Reading { bits: vec![], chance: N::ONE, covariance: covariance.to_vec() }
    }

    /// Nothing is left to read.
    pub fn is_whole(&self) -> bool {
        2 * self.bits.len() == self.covariance.len()
    }

    /// With the next mode's bit. No more can be read where it has no chance, since that would be divided by.
    pub fn next(&self, bit: bool) -> Self {
        let mut next = self.clone();
        let mode = self.bits.len();
        let value = self.covariance[2 * mode][2 * mode + 1];
        let zero = N::HALF * (N::ONE + value);
        next.chance = self.chance * if bit { N::ONE - zero } else { zero };
        next.bits.push(bit);
        let whole = N::ONE + signed(bit, value);
        if whole != N::ZERO {
            next.changed(mode, signed(bit, whole.inverse()));
        }
        next
    }

    fn changed(&mut self, mode: usize, factor: N) {
        let ([a, b], m) = ([2 * mode, 2 * mode + 1], &mut self.covariance);
        for c in b + 1..m.len() {
            for e in c + 1..m.len() {
                let more = factor * (m[c][b] * m[e][a] - m[c][a] * m[e][b]);
                m[c][e] = m[c][e] + more;
                m[e][c] = -m[c][e];
            }
        }
    }
}

//! Document 01's bit register, which stands beside accepted runs of register tapes.

use crate::answer::Answer;
use crate::query::Query;
use original::gate::Gate;

/// "It holds n bits, all zero at first."
pub struct Register {
    n: usize,
    bits: u128,
}

impl Register {
    /// The register of a register tape; none if a gate is not one of its codes.
    pub fn of(n: usize, gates: &[Gate]) -> Option<Register> {
        let mut bits: u128 = 0;
        for g in gates {
            match *g {
                Gate::X(q) | Gate::Y(q) => bits ^= 1 << q,
                Gate::Swap(a, b) | Gate::ISwap(a, b) | Gate::ISwapdg(a, b) => {
                    let other = (bits >> a ^ bits >> b) & 1;
                    bits ^= other << a | other << b;
                }
                Gate::I(_) | Gate::Z(_) | Gate::S(_) | Gate::Sdg(_) => {}
                _ => return None,
            }
        }
        Some(Register { n, bits })
    }

    /// The answer to a query that is not refused: its number alone, since the register knows no row.
    pub fn answer(&self, query: &Query) -> Answer {
        let all: Vec<usize> = (0..self.n).collect();
        match query {
            Query::Product(qs) => self.product(qs),
            Query::Marginal(qs, bits) => self.marginal(qs, bits),
            Query::Probability(x) => {
                self.marginal(&all, &all.iter().map(|q| x >> q & 1 == 1).collect::<Vec<_>>())
            }
            Query::Sample(shots, _) => Answer::Shots(vec![self.bits; *shots]),
        }
    }

    fn bit(&self, q: usize) -> bool {
        self.bits >> q & 1 == 1
    }

    /// "-1.0 if an odd number of ones is listed, each qubit counted as often as it stands there, otherwise 1.0"
    fn product(&self, qs: &[usize]) -> Answer {
        let ones = qs.iter().filter(|&&q| self.bit(q)).count();
        Answer::Value(if ones % 2 == 1 { -1.0 } else { 1.0 }, None)
    }

    /// "0.0 if a listed qubit below n has another bit than the one asked, otherwise 1.0"
    fn marginal(&self, qs: &[usize], bits: &[bool]) -> Answer {
        let other = |(&q, &b): (&usize, &bool)| q < self.n && self.bit(q) != b;
        Answer::Value(if qs.iter().zip(bits).any(other) { 0.0 } else { 1.0 }, None)
    }
}

//! Faulty copies of the engine's evolution over the operations of a run, which the state vector must tell.

use super::seen::{Count::*, FAULTY};
use super::values::Beside;
use super::All;
use crate::slice::Slice;
use oracle::answer::Answer;
use oracle::complex::Complex;
use oracle::query::Query;
use oracle::runs::faults::{covariance, turns};

/// A fault is told by a difference that is larger.
const TOLD: f64 = 1e-6;

impl Beside<'_> {
    pub fn faults(&self, all: &mut All) {
        let n = self.ran.slice.n;
        if turns(n, &self.ran.ops).is_empty() {
            return;
        }
        all.seen.note(Turning, 1);
        for (which, fault) in FAULTY.into_iter().enumerate() {
            all.seen.fault(which, self.differs(&covariance(n, &self.ran.ops, fault)));
        }
    }

    /// Whether another covariance has another entry, another single Z, another product.
    fn differs(&self, covariance: &[f64]) -> [bool; 3] {
        let slice: Slice = self.ran.with(covariance);
        let far = |x: f64, value: Complex| (x - value.re).abs() > TOLD;
        let other = |qubits: &Vec<usize>| match slice.ask(&Query::Product(qubits.clone())).0 {
            Answer::Value(x, _) => far(x, self.vector.product(qubits)),
            _ => true,
        };
        let entries = covariance.iter().zip(self.truth).any(|(&x, &value)| far(x, value));
        let (zs, products) = self.products.split_at(self.ran.slice.n);
        [entries, zs.iter().any(other), products.iter().any(other)]
    }
}

//! What a run left, and what it answers, beside a state vector.

use super::seen::Count::*;
use super::{All, ENTRIES, INDICES, MARGINALS, PLACES, PRODUCTS, ZS};
use crate::ran::Ran;
use oracle::answer::Answer;
use oracle::complex::Complex;
use oracle::exact::asked::{contradicts, marginals, products, repeats};
use oracle::exact::lists::{inverted, List};
use oracle::exact::vector::Vector;
use oracle::plain;
use oracle::query::Query;
use oracle::rng::Rng;

/// Largest difference that counts as none.
pub const CLOSE: f64 = 1e-9;

pub type Told<'a> = &'a dyn Fn(String) -> String;

pub fn compare(all: &mut All, rng: &mut Rng, list: &List<Complex>, ran: &Ran, told: Told) {
    let (vector, products) = (Vector::of(list), products(rng, list.n));
    let on = inverted(&ran.modes);
    let truth: Vec<Complex> = vector.covariance(&on).concat();
    let beside = Beside { ran, vector: &vector, truth: &truth, products: &products, told };
    beside.entries(all);
    beside.products(all);
    beside.marginals(all, rng);
    beside.indices(all, rng);
    beside.shots(all, rng, &on);
    beside.faults(all);
}

pub struct Beside<'a> {
    pub ran: &'a Ran,
    pub vector: &'a Vector<Complex>,
    /// The covariance, by rows.
    pub truth: &'a [Complex],
    pub products: &'a [Vec<usize>],
    pub told: Told<'a>,
}

impl Beside<'_> {
    /// A number of the library's beside one of the vector's, which is real.
    fn number(&self, all: &mut All, kind: usize, what: &str, got: Option<f64>, value: Complex) {
        let apart = got.map_or(f64::NAN, |x| (x - value.re).abs().max(value.im.abs()));
        all.seen.number(kind, value.re, apart);
        all.tallies[kind].count(apart <= CLOSE, || {
            (self.told)(format!("{what} is {got:?}, by the state vector {value:?}"))
        });
    }

    fn entries(&self, all: &mut All) {
        let n = self.ran.slice.n;
        let covariance = plain::covariance(n, &self.ran.slice.places);
        for (k, (&got, &value)) in covariance.iter().zip(self.truth).enumerate() {
            let what = format!("the entry ({}, {})", k / (2 * n), k % (2 * n));
            self.number(all, ENTRIES, &what, Some(got), value);
        }
    }

    fn query(&self, all: &mut All, kind: usize, query: &Query, value: Complex) {
        let (answer, kept) = self.ran.slice.ask(query);
        let got = if let Answer::Value(x, _) = answer { Some(x) } else { None };
        self.number(all, kind, &query.to_string(), got, value);
        all.tallies[PLACES].count(kept, || (self.told)(format!("work of {query}")));
    }

    fn products(&self, all: &mut All) {
        for (k, qubits) in self.products.iter().enumerate() {
            let kind = if k < self.ran.slice.n { ZS } else { PRODUCTS };
            all.seen.note(Repeated, repeats(qubits).into());
            let value = self.vector.product(qubits);
            self.query(all, kind, &Query::Product(qubits.clone()), value);
        }
    }

    fn marginals(&self, all: &mut All, rng: &mut Rng) {
        for listed in marginals(rng, self.ran.slice.n) {
            all.seen.note(Contradicting, contradicts(&listed).into());
            all.seen.note(Agreeing, (repeats(&listed) && !contradicts(&listed)).into());
            let (qubits, bits) = listed.iter().copied().unzip();
            let value = self.vector.marginal(&listed);
            self.query(all, MARGINALS, &Query::Marginal(qubits, bits), value);
        }
    }

    /// All basis indices; bits from n upward do not count.
    fn indices(&self, all: &mut All, rng: &mut Rng) {
        let n = self.ran.slice.n;
        for x in 0..1 << n {
            let query = Query::Probability(x as u128 | u128::from(rng.word()) << n);
            self.query(all, INDICES, &query, self.vector.index(x));
        }
    }
}

//! The plain engine beside the original: random lists of operations from the vacuum, then queries to both states.

use super::lists::{list, Numbers, FAMILIES};
use super::{asked, covariance, same_but_zeros, Plain};
use crate::answer::{answer_on, Answer};
use crate::bits::same;
use crate::layout::state_places;
use crate::query::Query;
use crate::rng::Rng;
use crate::state_lists::machine::Machine;
use original::access::state::{access, GaussianState};
use std::fmt;

/// Modes at most.
const MOST: usize = 6;

/// What was compared.
#[derive(Default)]
pub struct Outcome {
    pub lists: usize,
    pub operations: usize,
    /// Lists with a turn of later modes.
    pub turning: usize,
    pub answers: usize,
    pub differ: usize,
}

/// Compares so many lists of each family.
pub fn beside(seed: u64, count: usize) -> Outcome {
    let rng = &mut Rng::new(seed);
    let mut out = Outcome::default();
    for (_, numbers) in FAMILIES {
        (0..count).for_each(|_| out.add(rng, numbers));
    }
    out
}

impl fmt::Display for Outcome {
    fn fmt(&self, f: &mut fmt::Formatter<'_>) -> fmt::Result {
        let Outcome { lists, operations, turning, answers, differ } = self;
        write!(f, "{lists} lists, {turning} of which turn later modes; after {operations} operations entries compared, ")?;
        write!(f, "and {answers} answers; {differ} differ")
    }
}

impl Outcome {
    fn add(&mut self, rng: &mut Rng, numbers: Numbers) {
        let n = rng.between(1, MOST);
        let modes = rng.permutation(n);
        let table = modes.iter().map(|&k| k as u16).collect();
        let mut plain = Plain::vacuum(n);
        let mut original = Machine::on(n, slice(&GaussianState::vacuum(n)), table);
        let mut turns = false;
        for op in list(rng, n, numbers) {
            turns |= asked(n, &op).is_ok_and(|map| map.is_some_and(|map| map.turns(n)));
            let numbers_agree = original.step(&op) == plain.apply(&op);
            let agree = same_but_zeros(&covariance(n, original.slice()), &plain.entries());
            self.operations += 1;
            self.differ += usize::from(!numbers_agree || !agree);
        }
        self.lists += 1;
        self.turning += usize::from(turns);
        let states = [original.slice().to_vec(), [plain.entries(), vec![1.0; 2 * n]].concat()];
        let states = states.map(|slice| state(n, &slice, &modes));
        for query in queries(rng, n) {
            let [original, plain] = states.each_ref().map(|state| answer_on(state, n, &query));
            self.answers += 1;
            self.differ += usize::from(!equal(&original, &plain));
        }
    }
}

/// A state's m and d.
fn slice(s: &GaussianState) -> Vec<f64> {
    [access::m(s), access::d(s)].concat()
}

/// The original's state with m and d.
fn state(n: usize, slice: &[f64], modes: &[usize]) -> GaussianState {
    assert_eq!(slice.len(), state_places(n));
    let (m, d) = slice.split_at(slice.len() - 2 * n);
    access::state(n, m.to_vec(), d.to_vec(), modes.to_vec())
}

/// Queries of every kind.
fn queries(rng: &mut Rng, n: usize) -> Vec<Query> {
    let all: Vec<usize> = (0..n).collect();
    let mut marginal = |qubits: Vec<usize>| {
        let bits = qubits.iter().map(|_| rng.chance(1, 2)).collect();
        Query::Marginal(qubits, bits)
    };
    let marginals = [marginal(all.clone()), marginal(vec![n / 2])];
    let some = rng.subset(n);
    let draws = (0..2 * n).map(|_| rng.unit()).collect();
    let rest = [
        Query::z(rng.below(n)),
        Query::Product(some),
        Query::Product(all),
        Query::Probability(rng.word().into()),
        Query::Sample(2, draws),
    ];
    marginals.into_iter().chain(rest).collect()
}

/// Whether two answers to a query are the same, zeros of either sign being one, with one row.
fn equal(a: &Answer, b: &Answer) -> bool {
    match (a, b) {
        (Answer::Value(x, row), Answer::Value(y, other)) => same(x + 0.0, y + 0.0) && row == other,
        (Answer::Shots(x), Answer::Shots(y)) => x == y,
        _ => false,
    }
}

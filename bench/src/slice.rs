//! A state in the port's form: its slice and mode table. Calls on it get exactly the work that question 20 asks for.

use crate::jozkeral::{self, Number, Refusal, State};
use crate::layout::{covariance_places, index_of, index_words, kind, query_places, INDEX_WORDS};
use crate::lent::OLD;
use oracle::answer::Answer;
use oracle::compiled::answer::{filled, Places};
use oracle::query::Query;
use original::access::detect::GaussOp;
use original::access::state::{access, GaussianState};

/// Places of work and words of output after those that are lent.
const GUARD: usize = 2;
const OLD_WORD: u64 = 7;

pub struct Slice {
    pub n: usize,
    pub places: Vec<f64>,
    pub modes: Vec<u16>,
}

impl Slice {
    pub fn of(n: usize, s: &GaussianState) -> Slice {
        let places = [access::m(s), access::d(s)].concat();
        let modes = (0..n).map(|q| s.mode_of_qubit(q) as u16).collect();
        Slice { n, places, modes }
    }

    /// The original's state of the same numbers.
    pub fn original(&self) -> GaussianState {
        let (m, d) = self.places.split_at(covariance_places(self.n));
        access::state(self.n, m.to_vec(), d.to_vec(), self.mode_of_qubit())
    }

    /// The mode of each qubit.
    pub fn mode_of_qubit(&self) -> Vec<usize> {
        self.modes[..self.n].iter().map(|&k| k.into()).collect()
    }

    /// Applies an operation; the number of a refusal, or 0.
    pub fn apply(&mut self, op: &[f64]) -> u64 {
        let answer = jozkeral::apply(self.n, &mut self.places, &self.modes, op);
        Refusal::told(&answer)[0]
    }

    /// The answer to a query, and whether work and output are afterwards as they must be.
    pub fn ask(&self, query: &Query) -> (Answer, bool) {
        let room = room(self.n, query);
        let mut buffer = vec![OLD; room.unwrap_or(1) + GUARD];
        let (work, rest) = buffer.split_at_mut(room.unwrap_or(1));
        let state = State { n: self.n, slice: &self.places, modes: &self.modes };
        let mut well = true;
        let answer = match query {
            Query::Product(qs) => state.expectation_z_product(qs, work).map(numbered),
            Query::Marginal(qs, bits) => {
                let bits: Vec<u8> = bits.iter().map(|&b| b.into()).collect();
                state.marginal_probability(qs, &bits, work).map(numbered)
            }
            Query::Probability(x) => {
                let [low, high] = index_words(*x);
                state.probability(low, high, work).map(|x| Answer::Value(x, None))
            }
            Query::Sample(shots, draws) => {
                let mut out = vec![OLD_WORD; INDEX_WORDS * shots + GUARD];
                let (words, rest) = out.split_at_mut(INDEX_WORDS * shots);
                let answer = state.sample(*shots, draws, work, words);
                well = rest.iter().all(|&x| x == OLD_WORD);
                let shots = words.chunks(INDEX_WORDS).map(|w| index_of(w[0], w[1]));
                answer.map(|()| Answer::Shots(shots.collect()))
            }
        };
        let zero = |x: &f64| x.to_bits() == 0;
        well &= if room.is_some() { work.iter().all(zero) } else { *work == [OLD] };
        well &= rest.iter().all(|&x| x == OLD);
        (answer.unwrap_or_else(|r| Answer::Refused(r.number as u8, r.place as usize)), well)
    }
}

fn numbered(number: Number) -> Answer {
    Answer::Value(number.value, number.row)
}

/// The places of an operation.
pub fn places(op: &GaussOp) -> Places {
    match op {
        GaussOp::One { mode, q } => filled(kind::ONE, *mode, q.as_flattened()),
        GaussOp::Two { mode, q } => filled(kind::TWO, *mode, q.as_flattened()),
        GaussOp::Interaction(_) => filled(kind::INTERACTION, 0, &[]),
    }
}

/// The places of work that question 20 asks for; none if the answer is given before it.
fn room(n: usize, query: &Query) -> Option<usize> {
    let modes = match query {
        Query::Product(qs) => odd(n, qs),
        Query::Marginal(qs, bits) => agreeing(n, qs, bits),
        Query::Probability(_) | Query::Sample(..) => Some(n),
    };
    modes.map(query_places)
}

/// How many qubits are listed an odd number of times.
fn odd(n: usize, qs: &[usize]) -> Option<usize> {
    let count = |q: &usize| qs.iter().filter(|&x| x == q).count();
    qs.iter().all(|&q| q < n).then(|| (0..n).filter(|q| count(q) % 2 == 1).count())
}

/// How many qubits are listed, if each is there with one bit only.
fn agreeing(n: usize, qs: &[usize], bits: &[bool]) -> Option<usize> {
    let mut seen: Vec<Option<bool>> = vec![None; n];
    for (&q, &b) in qs.iter().zip(bits) {
        if *seen.get_mut(q)?.get_or_insert(b) != b {
            return None;
        }
    }
    (qs.len() == bits.len()).then(|| seen.iter().flatten().count())
}

//! A state in the slice and mode table of a state call, and the calls on it:
//! document 01's questions in their order, then the original's own methods.
//! Each call becomes a record.

use super::tag;
use crate::answer::{self, answer_on, Asked};
use crate::bits::word;
use crate::layout::{
    covariance_places, index_of, index_words, kind, query_places, state_places, INDEX_WORDS,
    MAX_QUBITS, MAX_SHOTS, OP_PLACES,
};
use crate::query::Query;
use crate::records::Records;
use crate::stops::Found;
use original::access::detect::{GaussOp, InteractionPhase};
use original::access::state::{access, GaussianState};
use rand::Draws;

/// Places of the largest slice of a list.
pub const SLICE: usize = 288;
/// Entries of the largest list of qubits.
pub const QUBITS: usize = 8;
/// Places of an operation slice, two more than an operation has.
pub const OP: usize = OP_PLACES + 2;
/// Draws of the largest sample.
pub const DRAWS: usize = 32;
/// Words of the largest output.
pub const OUT: usize = 16;
/// What stands in work and output before a call.
const OLD: u64 = 7;

/// What a call answers: 0 or the question's number, its place, the value, the row.
type Answer = (u64, u64, f64, Option<usize>);

const fn refused(number: u64, place: usize) -> Answer {
    (number, place as u64, 0.0, None)
}

/// What is zero before question 20 and has no row.
const ZERO: Answer = (0, 0, 0.0, None);

/// The word of a row: 0 if there is none, else the row and one.
pub fn row_word(row: Option<usize>) -> u64 {
    row.map_or(0, |row| row as u64 + 1)
}

/// The slice, n and the mode table.
pub struct Machine {
    pub out: Records,
    n: usize,
    slice: Vec<f64>,
    modes: Vec<u16>,
}

impl Machine {
    pub fn new() -> Machine {
        Machine::on(0, vec![], vec![])
    }

    /// A machine on a state, without a record of it.
    pub fn on(n: usize, slice: Vec<f64>, modes: Vec<u16>) -> Machine {
        Machine { out: Records::default(), n, slice, modes }
    }

    /// The slice as it is now.
    pub fn slice(&self) -> &[f64] {
        &self.slice
    }

    /// A record: tag, number of words that follow, the words.
    fn record(&mut self, tag: u64, words: &[u64]) {
        self.out.words(&[tag, words.len() as u64]);
        self.out.words(words);
    }

    /// Another state: n, the length of the slice and of the table, the table, the slice.
    pub fn state(&mut self, n: usize, slice: &[f64], modes: &[u16]) {
        assert!(slice.len() <= SLICE && modes.len() <= QUBITS);
        (self.n, self.slice, self.modes) = (n, slice.to_vec(), modes.to_vec());
        let mut words = vec![n as u64, slice.len() as u64, modes.len() as u64];
        words.extend((0..QUBITS).map(|q| u64::from(modes.get(q).copied().unwrap_or(0))));
        words.extend(slice.iter().map(|&x| word(x)));
        self.record(tag::STATE, &words);
    }

    /// The vacuum, in a slice with two places too many.
    pub fn vacuum(&mut self, n: usize) {
        let s = GaussianState::vacuum(n);
        let slice = [access::m(&s), access::d(&s), &[7.0, -7.0]].concat();
        let modes: Vec<u16> = (0..n as u16).collect();
        self.state(n, &slice, &modes);
    }

    /// Question 16.
    fn state_ok(&self) -> bool {
        let n = self.n;
        let table = self.modes.get(..n.min(usize::from(u16::MAX)));
        let each_once =
            |t: &[u16]| (0..n).all(|k| t.iter().filter(|&&x| usize::from(x) == k).count() == 1);
        n <= MAX_QUBITS && self.slice.len() >= state_places(n) && table.is_some_and(each_once)
    }

    /// The original's state.
    fn original(&self) -> GaussianState {
        let n = self.n;
        let (m, d) = self.slice[..state_places(n)].split_at(covariance_places(n));
        let modes = self.modes[..n].iter().map(|&k| usize::from(k)).collect();
        access::state(n, m.to_vec(), d.to_vec(), modes)
    }

    /// The original's operation, if question 17 passes.
    fn operation(&self, op: &[f64]) -> Option<GaussOp> {
        let modes = |x: f64, below: usize| {
            (x >= 0.0 && x.fract() == 0.0 && x < below as f64).then_some(x as usize)
        };
        let q = |i: usize| op[2 + i];
        match op {
            _ if op.len() < OP_PLACES => None,
            [kind::ONE, mode, ..] => modes(*mode, self.n)
                .map(|mode| GaussOp::One { mode, q: [[q(0), q(1)], [q(2), q(3)]] }),
            [kind::TWO, mode, ..] => {
                modes(*mode, self.n.saturating_sub(1)).map(|mode| GaussOp::Two {
                    mode,
                    q: std::array::from_fn(|i| std::array::from_fn(|j| q(4 * i + j))),
                })
            }
            [kind::INTERACTION, ..] => Some(GaussOp::Interaction(InteractionPhase {
                block: 0,
                wires: (0, 1),
                modes: (0, 1),
                g: 1.0,
            })),
            _ => None,
        }
    }

    /// `apply`, then the state's slice as it is now.
    pub fn apply(&mut self, op: &[f64]) {
        self.put(op);
        self.holds();
    }

    /// `apply`: the length of the operation, its places, number and place. Gives the number.
    pub fn put(&mut self, op: &[f64]) -> u64 {
        let number = self.step(op);
        let mut words = vec![op.len() as u64];
        words.extend((0..OP).map(|i| word(op.get(i).copied().unwrap_or(0.0))));
        words.extend([number, 0]);
        self.record(tag::APPLY, &words);
        number
    }

    /// The state's slice as it is now.
    pub fn holds(&mut self) {
        let words: Vec<u64> = self.slice.iter().map(|&x| word(x)).collect();
        self.record(tag::HOLDS, &words);
    }

    /// The plain engine's matrix as it must be now.
    pub fn plain(&mut self, entries: &[f64]) {
        let words: Vec<u64> = entries.iter().map(|&x| word(x)).collect();
        self.record(tag::PLAIN, &words);
    }

    /// Applies an operation, or gives the number of the refusal.
    pub fn step(&mut self, op: &[f64]) -> u64 {
        match (self.state_ok(), self.operation(op)) {
            (false, _) => 16,
            (true, None) => 17,
            (true, Some(o)) => {
                self.applied(&o);
                0
            }
        }
    }

    fn applied(&mut self, op: &GaussOp) {
        let mut s = self.original();
        s.apply(op);
        let now = [access::m(&s), access::d(&s)].concat();
        self.slice[..now.len()].copy_from_slice(&now);
    }

    /// The words of work and answer: work's length, how many of its places are zero after the call, number,
    /// place, value. `dim` is none if the answer comes before question 20.
    fn worked(&self, work: usize, dim: Option<usize>, value: impl Fn() -> Answer) -> Vec<u64> {
        let mut words = self.rowed(work, dim, value);
        assert_eq!(words.pop(), Some(0), "a row of a call that tells none");
        words
    }

    /// The same and the row's word.
    fn rowed(&self, work: usize, dim: Option<usize>, value: impl Fn() -> Answer) -> Vec<u64> {
        let (zeros, (number, place, x, row)) = match dim {
            Some(dim) if work < dim * dim => (0, refused(20, 0)),
            Some(dim) => (dim * dim, value()),
            None => (0, value()),
        };
        vec![work as u64, zeros as u64, number, place, word(x), row_word(row)]
    }

    /// The original's value, and the row that the plain search finds.
    fn value(&self, query: &Query) -> Answer {
        match answer_on(&self.original(), self.n, query) {
            answer::Answer::Value(x, row) => (0, 0, x, row),
            other => panic!("{query} of good qubits gives{other}"),
        }
    }

    /// What the plain search finds of a product or a marginal.
    pub fn search(&self, query: &Query) -> Option<Found> {
        self.original().search(self.n, query)
    }

    /// Number and place of a list's refusal, else the original's product.
    pub fn product_words(&self, qubits: &[usize], work: usize) -> Vec<u64> {
        let bad = qubits.iter().position(|&q| q >= self.n);
        match (self.state_ok(), bad) {
            (false, _) => self.rowed(work, None, || refused(16, 0)),
            (_, Some(place)) => self.rowed(work, None, || refused(19, place)),
            _ => {
                let odd = (0..self.n)
                    .filter(|q| qubits.iter().filter(|&x| x == q).count() % 2 == 1)
                    .count();
                let query = Query::Product(qubits.to_vec());
                self.rowed(work, Some(2 * odd), || self.value(&query))
            }
        }
    }

    /// `expectation_z_product`: number of qubits, the qubits, then work and answer.
    pub fn product(&mut self, qubits: &[usize], work: usize) {
        let mut words = vec![qubits.len() as u64];
        words.extend((0..QUBITS).map(|i| qubits.get(i).copied().unwrap_or(0) as u64));
        words.extend(self.product_words(qubits, work));
        self.record(tag::PRODUCT, &words);
    }

    /// `marginal_probability`: numbers of qubits and of bits, the qubits, the bits, then work and answer.
    pub fn marginal(&mut self, qubits: &[usize], bits: &[u8], work: usize) {
        let mut words = vec![qubits.len() as u64, bits.len() as u64];
        words.extend((0..QUBITS).map(|i| qubits.get(i).copied().unwrap_or(0) as u64));
        words.extend((0..QUBITS).map(|i| u64::from(bits.get(i).copied().unwrap_or(0))));
        words.extend(self.marginal_words(qubits, bits, work));
        self.record(tag::MARGINAL, &words);
    }

    pub fn marginal_words(&self, qubits: &[usize], bits: &[u8], work: usize) -> Vec<u64> {
        if !self.state_ok() {
            return self.rowed(work, None, || refused(16, 0));
        }
        if qubits.len() != bits.len() || bits.iter().any(|&b| b > 1) {
            return self.rowed(work, None, || refused(18, 0));
        }
        let mut seen: Vec<(usize, u8)> = vec![];
        for (place, (&q, &b)) in qubits.iter().zip(bits).enumerate() {
            if q >= self.n {
                return self.rowed(work, None, || refused(19, place));
            }
            match seen.iter().find(|x| x.0 == q) {
                Some(&(_, other)) if other != b => return self.rowed(work, None, || ZERO),
                Some(_) => {}
                None => seen.push((q, b)),
            }
        }
        let query = Query::Marginal(qubits.to_vec(), bits.iter().map(|&b| b == 1).collect());
        self.rowed(work, Some(2 * seen.len()), || self.value(&query))
    }

    /// `probability`: the two words of the index, then work and answer.
    pub fn probability(&mut self, low: u64, high: u64, work: usize) {
        let mut words = vec![low, high];
        words.extend(self.probability_words(low, high, work));
        self.record(tag::PROBABILITY, &words);
    }

    pub fn probability_words(&self, low: u64, high: u64, work: usize) -> Vec<u64> {
        let value =
            || self.original().probability(index_of(low, high)).expect("at most 128 qubits");
        match self.state_ok() {
            false => self.worked(work, None, || refused(16, 0)),
            true => self.worked(work, Some(2 * self.n), || (0, 0, value(), None)),
        }
    }

    /// `sample`: shots, number of draws, length of the output, the draws, then work and answer, then the output.
    pub fn sample(&mut self, shots: usize, draws: &[f64], out: usize, work: usize) {
        let mut words = vec![shots as u64, draws.len() as u64, out as u64];
        words.extend((0..DRAWS).map(|i| word(draws.get(i).copied().unwrap_or(0.0))));
        let (answer, mut output) = self.sample_words(shots, draws, out, work);
        output.resize(OUT, OLD);
        words.extend(answer);
        words.extend(output);
        self.record(tag::SAMPLE, &words);
    }

    /// Work and answer of `sample`, and its output of so many words.
    pub fn sample_words(
        &self,
        shots: usize,
        draws: &[f64],
        out: usize,
        work: usize,
    ) -> (Vec<u64>, Vec<u64>) {
        let used = self.n.saturating_mul(shots);
        let bad = || draws[..used].iter().position(|x| !(*x >= 0.0 && *x < 1.0));
        let number = if !self.state_ok() {
            16
        } else if shots > MAX_SHOTS || draws.len() < used || out < INDEX_WORDS * shots {
            21
        } else if bad().is_some() {
            22
        } else {
            0
        };
        let place = if number == 22 { bad().unwrap_or(0) } else { 0 };
        let dim = (number != 16).then_some(2 * self.n);
        let answer = self.worked(work, dim, || refused(number, place));
        let mut output = vec![OLD; out];
        if answer[2] == 0 {
            let shots = self.shots(shots, &draws[..used]);
            for (words, x) in output.chunks_exact_mut(INDEX_WORDS).zip(shots) {
                words.copy_from_slice(&index_words(x));
            }
        }
        (answer, output)
    }

    /// The original's shots.
    pub fn shots(&self, shots: usize, draws: &[f64]) -> Vec<u128> {
        self.original().sample(shots, &mut Draws(draws.iter())).expect("at most 128 qubits")
    }

    /// Z of every qubit and every product of two, and the probability of some indices.
    pub fn ask_all(&mut self) {
        let n = self.n;
        (0..n).for_each(|q| self.product(&[q], query_places(1) + q % 3));
        for j in 1..n {
            (0..j).for_each(|i| self.product(&[i, j], query_places(2)));
        }
        let all: Vec<usize> = (0..n).collect();
        self.product(&all, query_places(n));
        self.probability(0, 0, query_places(n));
        self.probability(5, 0, query_places(n));
    }
}

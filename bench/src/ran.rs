//! A run of the library, by the C interface, and what it left in the caller's slices.

use crate::jozkeral::{Number, State};
use crate::layout::{kind, question, state_places, word, OP_PLACES, RECORD_OPS};
use crate::lent::{Lent, OLD};
use crate::slice::Slice;
use oracle::answer::Answer;
use oracle::query::Query;
use oracle::rng::Rng;
use oracle::tape::gates_on;

pub struct Ran {
    pub slice: Slice,
    /// The mode of each qubit, as the report has it.
    pub modes: Vec<usize>,
    /// The operations, 18 places each.
    pub ops: Vec<f64>,
    /// Each of them is of a kind and on modes that there are.
    pub readable: bool,
    /// Nothing stands behind them, and the slices are as they must be.
    pub kept: bool,
    /// No interaction was dropped.
    pub exact: bool,
}

impl Ran {
    /// The number of a refusal, if the tape is refused.
    pub fn of(tape: &[u8], n: usize) -> Result<Ran, u64> {
        let gates = gates_on(tape);
        let mut lent = Lent::new(gates, n, RECORD_OPS * (gates + n), gates % 3);
        let told = lent.run(tape);
        match told.refused {
            [0, 0] => {}
            [number @ question::APART..=question::LIMIT, 0] => return Err(number),
            other => panic!("a good tape is refused by {other:?}"),
        }
        let report = &told.report;
        let (ops, behind) =
            lent.ops().split_at(OP_PLACES * report.words[word::OPERATIONS] as usize);
        let readable = ops.chunks(OP_PLACES).all(|op| is_operation(n, op));
        let kept = behind.iter().all(|&x| x == OLD) && lent.kept(0, true);
        let places = lent.state()[..state_places(n)].to_vec();
        let slice = Slice { n, places, modes: report.modes().to_vec() };
        let exact = report.words[word::EXACT] == 1;
        Ok(Ran { modes: slice.mode_of_qubit(), slice, ops: ops.to_vec(), exact, readable, kept })
    }

    /// The same with the matrix of another state, and signs that are all 1.0.
    pub fn with(&self, covariance: &[f64]) -> Slice {
        let n = self.slice.n;
        let places = [covariance, &vec![1.0; 2 * n]].concat();
        Slice { n, places, modes: self.slice.modes.clone() }
    }

    /// The library's answer to a product, none if it is refused; and whether work is afterwards as it must be.
    pub fn product(&self, query: &Query) -> (Option<f64>, bool) {
        product(&self.slice, query)
    }

    /// A qubit that is not there is refused with its place, and work that is a place too short.
    pub fn refuses(&self, rng: &mut Rng) -> bool {
        let n = self.slice.n;
        let mut listed: Vec<usize> = (0..rng.below(4)).map(|_| rng.below(n)).collect();
        let at = rng.below(listed.len() + 1);
        listed.insert(at, n + rng.below(3));
        let (answer, kept) = self.slice.ask(&Query::Product(listed));
        let wanted = [question::LISTED, at as u64];
        let beyond = matches!(answer, Answer::Refused(a, b) if [a.into(), b as u64] == wanted);
        let state = State { n, slice: &self.slice.places, modes: &self.slice.modes };
        let mut work = [OLD; 3];
        let short: Result<Number, _> = state.expectation_z_product(&[rng.below(n)], &mut work);
        let told = short.err().map(|refusal| [refusal.number, refusal.place]);
        kept && beyond && told == Some([question::QUERY_WORK, 0]) && work == [OLD; 3]
    }
}

pub fn product(slice: &Slice, query: &Query) -> (Option<f64>, bool) {
    match slice.ask(query) {
        (Answer::Value(x, _), kept) => (Some(x), kept),
        (_, kept) => (None, kept),
    }
}

fn is_operation(n: usize, op: &[f64]) -> bool {
    let fits = |modes: usize| op[1] >= 0.0 && op[1].fract() == 0.0 && op[1] as usize + modes <= n;
    match op[0] {
        kind::ONE => fits(1),
        kind::TWO => fits(2),
        kind::INTERACTION => fits(1),
        _ => false,
    }
}

//! The original's answers to queries.

use crate::layout::question;
use crate::query::{index_text, Query};
use crate::{bits, list::List, stops};
use original::access::state::GaussianState as AccessState;
use original::circuit::SimError;
use original::engines::gaussian::state::GaussianState;
use rand::Draws;
use std::fmt;

/// An answer, or the number and place of a refusal.
#[derive(Clone, Debug)]
pub enum Answer {
    /// Of a product or a marginal with the row where its Pfaffian stops, if it does.
    Value(f64, Option<usize>),
    Shots(Vec<u128>),
    Refused(u8, usize),
}

impl Answer {
    pub fn row(&self) -> Option<usize> {
        match self {
            Answer::Value(_, row) => *row,
            _ => None,
        }
    }

    /// The same without a row.
    pub fn rowless(self) -> Answer {
        match self {
            Answer::Value(x, _) => Answer::Value(x, None),
            other => other,
        }
    }
}

/// One bit for each qubit of a marginal.
const BITS_MATCH: u8 = question::BITS as u8;
/// Every listed qubit below n.
const QUBITS_EXIST: u8 = question::LISTED as u8;

/// A state of the original, in either of its module trees.
pub trait Asked {
    /// The original's answer, without a row.
    fn ask(&self, query: &Query) -> Result<Answer, SimError>;

    /// What the plain search for the row finds beside the answer.
    fn search(&self, n: usize, query: &Query) -> Option<stops::Found>;

    /// What the original's own methods for one qubit and for two give; none for other lists.
    fn ask_few(&self, qs: &[usize]) -> Option<Result<f64, SimError>>;
}

macro_rules! asked {
    ($state:ty) => {
        impl Asked for $state {
            fn ask(&self, query: &Query) -> Result<Answer, SimError> {
                let value = |x| Answer::Value(x, None);
                match query {
                    Query::Product(qs) => self.expectation_z_product(qs).map(value),
                    Query::Marginal(qs, bs) => self.marginal_probability(qs, bs).map(value),
                    Query::Probability(x) => self.probability(*x).map(value),
                    Query::Sample(shots, draws) => {
                        self.sample(*shots, &mut Draws(draws.iter())).map(Answer::Shots)
                    }
                }
            }

            fn search(&self, n: usize, query: &Query) -> Option<stops::Found> {
                let modes: Vec<usize> = (0..n).map(|q| self.mode_of_qubit(q)).collect();
                stops::search(&self.covariance(), &modes, query)
            }

            fn ask_few(&self, qs: &[usize]) -> Option<Result<f64, SimError>> {
                match *qs {
                    [q] => Some(self.expectation_z(q)),
                    [i, j] => Some(self.z_correlation(i, j)),
                    _ => None,
                }
            }
        }
    };
}

asked!(GaussianState);
asked!(AccessState);

/// Puts one query to the state of an accepted run.
pub fn answer(state: &impl Asked, list: &List, query: &Query) -> Answer {
    answer_on(state, list.n, query)
}

/// Puts one query to a state of n qubits. Of a product of one qubit or of two it is asserted that the original's own method for so many
/// gives the same bits: who agrees with the product agrees with that method.
pub fn answer_on(state: &impl Asked, n: usize, query: &Query) -> Answer {
    let answer = state.ask(query).unwrap_or_else(|e| refusal(&e, n, query));
    if let Some(few) = of_few(state, n, query) {
        let (product, few) = (answer.to_string(), few.to_string());
        assert_eq!(product, few, "{query} beside the original's method for one qubit or for two");
    }
    match answer {
        Answer::Value(x, None) => Answer::Value(x, row(state, n, query, x)),
        other => other,
    }
}

/// The row beside a number of the original. It is asserted that the plain search comes to the same number, and that beside a row it is zero.
fn row(state: &impl Asked, n: usize, query: &Query, number: f64) -> Option<usize> {
    let found = state.search(n, query)?;
    assert!(found.is_of(number, query), "{query}: {} by the plain search", found.number);
    assert!(found.row().is_none() || number == 0.0, "{query}: a row beside {number}");
    found.row()
}

/// A product of one qubit by the original's `expectation_z`, of two by its `z_correlation`; but a zero of one qubit is +0.0, whatever
/// its sign there.
fn of_few(state: &impl Asked, n: usize, query: &Query) -> Option<Answer> {
    let Query::Product(qs) = query else { return None };
    Some(match state.ask_few(qs)? {
        Ok(x) if qs.len() == 1 && x == 0.0 => Answer::Value(0.0, None),
        Ok(x) => Answer::Value(x, None),
        Err(e) => refusal(&e, n, query),
    })
}

/// The number of an error; the place of a qubit is its index in the list.
fn refusal(error: &SimError, n: usize, query: &Query) -> Answer {
    match (error, query) {
        (SimError::QubitOutOfRange { .. }, _) => {
            Answer::Refused(QUBITS_EXIST, first_beyond(n, query))
        }
        (SimError::NotSupported { .. }, Query::Marginal(..)) => Answer::Refused(BITS_MATCH, 0),
        _ => panic!("the original answers {query} with an unforeseen error: {error}"),
    }
}

/// The index of the first listed qubit that is not below n.
fn first_beyond(n: usize, query: &Query) -> usize {
    let listed: &[usize] = match query {
        Query::Product(qs) | Query::Marginal(qs, _) => qs,
        _ => &[],
    };
    listed.iter().position(|&q| q >= n).unwrap_or(0)
}

impl fmt::Display for Answer {
    fn fmt(&self, f: &mut fmt::Formatter<'_>) -> fmt::Result {
        match self {
            Answer::Value(x, None) => write!(f, " {}", bits::text(*x)),
            Answer::Value(x, Some(row)) => write!(f, " {} row {row}", bits::text(*x)),
            Answer::Shots(xs) => xs.iter().try_for_each(|x| write!(f, " {}", index_text(*x))),
            Answer::Refused(number, place) => write!(f, " refused {number} at {place}"),
        }
    }
}

//! Angled lists beside the unmodified original: covariance and answers within 1e-9.

use crate::asks::close;
use crate::slice::Slice;
use oracle::answer::{answer, Answer};
use oracle::list::List;
use oracle::query::Query;
use original::engines::gaussian::state::GaussianState;
use rand::Draws;

/// Largest difference between two covariances of an angled list, and least between a draw and a probability.
const CLOSE: f64 = 1e-9;

/// Whether two covariances differ by at most `CLOSE`.
pub fn covariance(slice: &Slice, theirs: &GaussianState) -> bool {
    let mut both = slice.original().covariance().into_iter().zip(theirs.covariance());
    both.all(|(x, y)| (x - y).abs() <= CLOSE)
}

/// Whether the unmodified original gives this answer, or nearly this.
pub enum Nearly {
    Yes,
    /// Other shots, but a draw lies next to a probability.
    NearDraw,
    No,
}

pub fn answer_near(slice: &Slice, list: &List, theirs: &GaussianState, query: &Query) -> Nearly {
    let (want, got) = (answer(theirs, list, query), slice.ask(query).0);
    match (query, &want, &got) {
        _ if close(&want, &got) => Nearly::Yes,
        (Query::Sample(_, draws), Answer::Shots(want), Answer::Shots(got)) => {
            let mut each = want.iter().zip(got).zip(draws.chunks(list.n.max(1)));
            let near = each.all(|((w, g), draws)| w == g || near_draw(slice, theirs, w ^ g, draws));
            if near {
                Nearly::NearDraw
            } else {
                Nearly::No
            }
        }
        _ => Nearly::No,
    }
}

/// Whether the first draw after which two shots differ lies next to the probability that it is held against: a little below and a
/// little above it the original's bit is another.
fn near_draw(slice: &Slice, theirs: &GaussianState, differ: u128, draws: &[f64]) -> bool {
    let modes = slice.mode_of_qubit();
    let first = (0..slice.n).filter(|&q| differ >> q & 1 == 1).min_by_key(|&q| modes[q]);
    let Some(q) = first else {
        return false;
    };
    let bit = |more: f64| {
        let mut moved = draws.to_vec();
        moved[modes[q]] += more;
        theirs.sample(1, &mut Draws(moved.iter())).expect("at most 128 qubits")[0] >> q & 1
    };
    bit(-CLOSE) != bit(CLOSE)
}

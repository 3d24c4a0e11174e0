//! What `run` must answer to a list and leave in its slices, where these
//! suffice: the report, operations and state of the unmodified original, or the
//! number of its refusal. On angled lists the rotations are those of document
//! 01's rule; there the state is what the original's `apply` makes of them, and
//! its covariance is asserted to be that of the original's run within 1e-9.

use crate::compiled::answer::{answer, Compiled};
use crate::layout::{table, OP_PLACES};
use crate::list::List;
use crate::run::run;
use crate::state_lists::machine::Machine;
use crate::state_text;
use crate::traced::Traced;
use original::engines::gaussian::state::GaussianState;

/// Largest difference between two covariances of one list.
const CLOSE: f64 = 1e-9;

pub struct Ran {
    pub compiled: Compiled,
    /// The operation places that question 10 asks for, in a refused run too.
    pub places: usize,
    /// m by rows, then d; nothing if the run is refused.
    pub state: Vec<f64>,
    pub seen: Traced,
    /// The original's own state.
    pub original: Option<GaussianState>,
}

impl Ran {
    pub fn of(list: &List) -> Ran {
        let (compiled, seen) = answer(list);
        let places = compiled.ops.len();
        match run(list).state {
            Err(number) => Ran { places, seen, ..Ran::refused(u64::from(number), 0) },
            Ok(original) => {
                let state = evolved(list.n, &compiled);
                compare(list, &state, &original, seen.angled);
                Ran { compiled, places, state, seen, original: Some(original) }
            }
        }
    }

    /// A refusal's numbers are zero.
    pub fn refused(number: u64, place: usize) -> Ran {
        let compiled = Compiled { refused: [number, place as u64], ..Compiled::default() };
        let seen = Traced { tried: 0, angled: false, apart: false };
        Ran { compiled, places: 0, state: vec![], seen, original: None }
    }

    pub fn accepted(&self) -> bool {
        self.compiled.refused == [0, 0]
    }

    /// The state, for queries.
    pub fn machine(&self, n: usize) -> Machine {
        let modes = self.compiled.tables[table::MODES].iter().map(|&k| k as u16).collect();
        Machine::on(n, self.state.clone(), modes)
    }
}

/// The operations applied to the vacuum by the original's `apply`.
fn evolved(n: usize, compiled: &Compiled) -> Vec<f64> {
    let (m, d) = state_text::parts(&GaussianState::vacuum(n));
    let mut machine = Machine::on(n, [m, d].concat(), (0..n as u16).collect());
    for op in compiled.ops.chunks(OP_PLACES) {
        assert_eq!(machine.step(op), 0, "an operation that is refused");
    }
    machine.slice().to_vec()
}

/// The same bits as the original's state, or on angled lists nearly the same covariance.
fn compare(list: &List, state: &[f64], original: &GaussianState, angled: bool) {
    let (m, d) = state_text::parts(original);
    let theirs = [m, d].concat();
    if angled {
        let near = |(x, y): (f64, f64)| (x - y).abs() <= CLOSE;
        let (a, b) = (covariance(list.n, state), covariance(list.n, &theirs));
        assert!(a.into_iter().zip(b).all(near), "another covariance:\n{list}");
    } else {
        assert!(
            state.iter().map(|x| x.to_bits()).eq(theirs.iter().map(|x| x.to_bits())),
            "another state:\n{list}"
        );
    }
}

/// An entry is m times its row's d, then its column's.
fn covariance(n: usize, state: &[f64]) -> Vec<f64> {
    let dim = 2 * n;
    let (m, d) = state.split_at(dim * dim);
    m.iter().enumerate().map(|(i, x)| x * d[i / dim] * d[i % dim]).collect()
}

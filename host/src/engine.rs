//! The engine, safely: the calls of the static library (include/jozkeral.h) on Rust's types. The
//! library keeps nothing and allocates nothing; each call here lends it slices that are long enough
//! for every tape that it takes.

use crate::layout::{
    index_of, index_words, kind, measure, ops_places, ordering, query_places, state_places, table,
    word, INDEX_WORDS, MAX_GATES, MAX_QUBITS, MAX_SHOTS, OP_PLACES,
};
use crate::library as c;
pub use crate::library::{Number, Refusal};

#[cfg(test)]
pub mod fake;

/// How the order of the wires was chosen.
#[derive(Clone, Copy, Debug, PartialEq, Eq)]
pub enum Ordering {
    Identity,
    Paths,
    Greedy,
}

/// What the detector found.
#[derive(Clone, Debug, PartialEq)]
pub struct Report {
    pub n: usize,
    pub blocks: u64,
    pub two_qubit: u64,
    pub gaussian: u64,
    pub bad: u64,
    pub nonadjacent: u64,
    pub interactions: u64,
    pub swaps: u64,
    pub number_conserving: bool,
    /// No block is bad, and none is an interaction; the original calls it so.
    pub exact: bool,
    /// No block is bad.
    pub free: bool,
    pub angled: bool,
    pub ordering: Ordering,
    /// The part of the blocks that is Gaussian.
    pub fraction: f64,
    pub max_residual: f64,
    /// The wire on each mode.
    pub order: Vec<usize>,
    /// Whether a path starts at each mode.
    pub starts: Vec<bool>,
    /// The mode of each qubit at the end.
    pub modes: Vec<usize>,
}

/// One step of a compiled tape, on modes.
#[derive(Clone, Debug, PartialEq)]
pub enum Operation {
    /// A map of one mode, row by row.
    One { mode: usize, map: [f64; 4] },
    /// A map of a mode and the next, row by row.
    Two { mode: usize, map: [f64; 16] },
    /// An interaction of two modes, which a run leaves out: the block's number in time order, and
    /// the unit (cos g, sin g) of its phase g.
    Interaction { modes: (usize, usize), block: usize, unit: (f64, f64) },
}

impl Operation {
    /// Its places in the library's slice: kind, mode, 16 numbers.
    fn places(&self) -> [f64; OP_PLACES] {
        let mut places = [0.0; OP_PLACES];
        match self {
            Operation::One { mode, map } => {
                (places[0], places[1]) = (kind::ONE, *mode as f64);
                places[2..6].copy_from_slice(map);
            }
            Operation::Two { mode, map } => {
                (places[0], places[1]) = (kind::TWO, *mode as f64);
                places[2..].copy_from_slice(map);
            }
            Operation::Interaction { modes, block, unit } => {
                (places[0], places[1]) = (kind::INTERACTION, modes.0 as f64);
                let numbers = [*block as f64, modes.1 as f64, unit.0, unit.1];
                places[2..6].copy_from_slice(&numbers);
            }
        }
        places
    }

    /// The operation of its places.
    fn of(places: &[f64]) -> Operation {
        let mode = places[1] as usize;
        match places[0] {
            kind::ONE => Operation::One { mode, map: std::array::from_fn(|i| places[2 + i]) },
            kind::TWO => Operation::Two { mode, map: std::array::from_fn(|i| places[2 + i]) },
            _ => Operation::Interaction {
                modes: (mode, places[3] as usize),
                block: places[2] as usize,
                unit: (places[4], places[5]),
            },
        }
    }
}

/// A tape's report and operations. There are no operations where a block is bad.
#[derive(Clone, Debug)]
pub struct Compiled {
    pub report: Report,
    pub operations: Vec<Operation>,
}

impl Compiled {
    /// How many blocks were tested for `number_conserving`: those on one qubit and the matchgates, and
    /// not the diagonal ones on two qubits, interactions among them. `None` where a block is bad, for
    /// then there are no operations to tell them apart by.
    pub fn number_tested(&self) -> Option<u64> {
        let matchgates = self.operations.iter().filter(|o| matches!(o, Operation::Two { .. }));
        let r = &self.report;
        (r.bad == 0).then(|| r.blocks - r.two_qubit + matchgates.count() as u64)
    }

    /// Whether every block that was tested conserves the number of ones; `None` where none was, or
    /// none is known to have been.
    pub fn number_conserving(&self) -> Option<bool> {
        match (self.report.number_conserving, self.number_tested()) {
            (false, _) => Some(false),
            (true, None | Some(0)) => None,
            (true, Some(_)) => Some(true),
        }
    }
}

/// A state, for the queries: the library's slice and mode table.
#[derive(Clone, Debug)]
pub struct State {
    n: usize,
    places: Vec<f64>,
    modes: Vec<u16>,
}

impl State {
    /// All qubits 0, with the identity as mode table.
    pub fn vacuum(n: usize) -> State {
        let dim = 2 * n;
        let mut places = vec![0.0; state_places(n)];
        for k in (0..dim).step_by(2) {
            places[k * dim + k + 1] = 1.0;
            places[(k + 1) * dim + k] = -1.0;
        }
        places[dim * dim..].fill(1.0);
        State { n, places, modes: (0..n as u16).collect() }
    }

    pub fn n(&self) -> usize {
        self.n
    }

    /// The state as the library is asked about it.
    fn asked(&self) -> c::State<'_> {
        c::State { n: self.n, slice: &self.places, modes: &self.modes }
    }

    /// How many modes a query of a list is about at most.
    fn most_left(&self, qubits: &[usize]) -> usize {
        qubits.len().min(self.n)
    }
}

/// A tape that was run.
#[derive(Clone, Debug)]
pub struct Run {
    pub compiled: Compiled,
    pub state: State,
}

/// What the tool asks of an engine.
pub trait Engine {
    /// The report and the operations: questions 1 to 10.
    fn compile(&self, tape: &[u8]) -> Result<Compiled, Refusal>;
    /// The state after all gates: questions 1 to 15.
    fn run(&self, tape: &[u8]) -> Result<Run, Refusal>;
    /// The expectation of a product of Z, of one qubit that qubit's parity.
    fn expectation_z_product(&self, state: &State, qubits: &[usize]) -> Result<Number, Refusal>;
    /// The probability that the qubits have these bits.
    fn marginal_probability(
        &self,
        state: &State,
        qubits: &[usize],
        bits: &[u8],
    ) -> Result<Number, Refusal>;
    /// The probability of a basis index; qubit q is its bit q.
    fn probability(&self, state: &State, index: u128) -> Result<f64, Refusal>;
    /// Shots as basis indices, from n draws each.
    fn sample(&self, state: &State, shots: usize, draws: &[f64]) -> Result<Vec<u128>, Refusal>;
}

/// The proved engine.
pub struct Library;

/// Calls that the tool has no need of.
impl Library {
    /// A label of the tape, counted from 0, as the part of the tape itself. `None` if there is none,
    /// or the tape would be refused by questions 1 to 8.
    pub fn label<'a>(&self, tape: &'a [u8], which: usize) -> Option<&'a [u8]> {
        c::label(tape, which)
    }

    /// Applies an operation to a state: questions 16 and 17.
    pub fn apply(&self, state: &mut State, operation: &Operation) -> Result<(), Refusal> {
        c::apply(state.n, &mut state.places, &state.modes, &operation.places())
    }
}

impl Engine for Library {
    fn compile(&self, tape: &[u8]) -> Result<Compiled, Refusal> {
        let (mut work, mut ops) = lent();
        let (report, answer) = c::compile(tape, &mut work, &mut ops);
        answer.map(|()| compiled(&report, &ops))
    }

    fn run(&self, tape: &[u8]) -> Result<Run, Refusal> {
        let (mut work, mut ops) = lent();
        let n = tape.get(2).map_or(0, |n| usize::from(*n).min(MAX_QUBITS));
        let mut places = vec![0.0; state_places(n)];
        let (report, answer) = c::run(tape, &mut work, &mut ops, &mut places);
        answer?;
        let state = State { n, places, modes: report.modes()[..n].to_vec() };
        Ok(Run { compiled: compiled(&report, &ops), state })
    }

    fn expectation_z_product(&self, s: &State, qubits: &[usize]) -> Result<Number, Refusal> {
        s.asked().expectation_z_product(qubits, &mut query_work(s.most_left(qubits)))
    }

    fn marginal_probability(
        &self,
        s: &State,
        qubits: &[usize],
        bits: &[u8],
    ) -> Result<Number, Refusal> {
        s.asked().marginal_probability(qubits, bits, &mut query_work(s.most_left(qubits)))
    }

    fn probability(&self, s: &State, index: u128) -> Result<f64, Refusal> {
        let [low, high] = index_words(index);
        s.asked().probability(low, high, &mut query_work(s.n))
    }

    fn sample(&self, s: &State, shots: usize, draws: &[f64]) -> Result<Vec<u128>, Refusal> {
        let mut out = vec![0; INDEX_WORDS * shots.min(MAX_SHOTS)];
        s.asked().sample(shots, draws, &mut query_work(s.n), &mut out)?;
        Ok(out.chunks(INDEX_WORDS).map(|w| index_of(w[0], w[1])).collect())
    }
}

/// Work for a query that so many modes are left to at most.
fn query_work(modes: usize) -> Vec<f64> {
    vec![0.0; query_places(modes.min(MAX_QUBITS))]
}

/// What is lent to compile or run a tape, with room for the largest: questions 9 and 10.
fn lent() -> (c::Work, Vec<f64>) {
    (c::Work::new(MAX_GATES, MAX_QUBITS), vec![0.0; ops_places(MAX_GATES, MAX_QUBITS)])
}

/// What the library wrote of a tape that it accepted.
fn compiled(written: &c::Report, ops: &[f64]) -> Compiled {
    let ops = ops.chunks(OP_PLACES).take(written.operations());
    let operations = ops.map(Operation::of).collect();
    Compiled { report: report(written), operations }
}

/// The report from the library's words and tables.
fn report(written: &c::Report) -> Report {
    let w = &written.words;
    let n = w[word::N] as usize;
    let says = |word: usize| w[word] != 0;
    let table = |which: usize| written.table(which)[..n].iter().map(|x| usize::from(*x));
    Report {
        n,
        blocks: w[word::BLOCKS],
        two_qubit: w[word::TWO],
        gaussian: w[word::GAUSSIAN],
        bad: w[word::BAD],
        nonadjacent: w[word::NONADJACENT],
        interactions: w[word::INTERACTIONS],
        swaps: w[word::SWAPS],
        number_conserving: says(word::CONSERVING),
        exact: says(word::EXACT),
        free: says(word::FREE),
        angled: says(word::ANGLED),
        ordering: match w[word::ORDERING] {
            ordering::IDENTITY => Ordering::Identity,
            ordering::PATHS => Ordering::Paths,
            ordering::GREEDY => Ordering::Greedy,
            other => unreachable!("there is no ordering {other}"),
        },
        fraction: written.measures[measure::FRACTION],
        max_residual: written.measures[measure::RESIDUAL],
        order: table(table::ORDER).collect(),
        starts: table(table::STARTS).map(|x| x != 0).collect(),
        modes: table(table::MODES).collect(),
    }
}

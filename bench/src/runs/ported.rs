//! What the port makes of a tape: `compile` and `run`, each in slices of its own.

use crate::layout::{question, word, OP_PLACES};
use crate::lent::{Lent, Told};
use crate::slice::Slice;
use oracle::compiled::answer::Compiled;
use oracle::tape::gates_on;

/// A run that was accepted.
pub struct Ran {
    pub slice: Slice,
    pub ops: Vec<f64>,
    /// No interaction was dropped.
    pub exact: bool,
}

pub struct Ported {
    pub compiled: Compiled,
    pub told: Told,
    pub lent: Lent,
    /// The slices are as they must be afterwards.
    pub well: bool,
}

impl Ported {
    /// With room for so many operations.
    pub fn of(tape: &[u8], n: usize, operations: usize) -> Ported {
        let gates = gates_on(tape);
        let fresh = || Lent::new(gates, n, operations, gates % 3);
        let (mut first, mut lent) = (fresh(), fresh());
        let compile = first.compile(tape);
        let told = lent.run(tape);
        let well = first.kept(compile.refused[0], false) && lent.kept(told.refused[0], true);
        Ported { compiled: first.compiled(&compile, n), told, lent, well }
    }

    /// Whether a run that is accepted is refused if a slice has a place too few.
    pub fn refuses_short(tape: &[u8], n: usize, operations: usize) -> bool {
        [question::WORK, question::OPERATIONS, question::STATE].into_iter().all(|asked| {
            let lent = Lent::new(gates_on(tape), n, operations, 0).short(asked);
            lent.is_none_or(|mut lent| {
                let told = lent.run(tape);
                told.refused == [asked, 0] && told.zero() && lent.kept(asked, true)
            })
        })
    }

    /// The state that the run made.
    pub fn ran(&self, n: usize) -> Ran {
        let report = &self.told.report;
        let slice = Slice { n, places: self.lent.state().to_vec(), modes: report.modes().to_vec() };
        let ops = self.lent.ops()[..OP_PLACES * report.operations()].to_vec();
        Ran { slice, ops, exact: report.words[word::EXACT] == 1 }
    }
}

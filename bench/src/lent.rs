//! The slices that the port's `compile` and `run` get: old values in them, and a few places more than must be there.

use crate::jozkeral::{self, Refusal, Report, Work};
use crate::layout::{question, state_places, table, work_floats, work_marks, OP_PLACES};
use oracle::compiled::answer::Compiled;

/// What stands in the slices before a call, and in the places that a call must leave alone.
pub const OLD: f64 = 7.0;
const OLD_MARK: u32 = 7;

pub struct Lent {
    work: Work,
    ops: Vec<f64>,
    state: Vec<f64>,
    more: usize,
}

/// What a call tells: number and place of a refusal, or zeros, and the report.
pub struct Told {
    pub refused: [u64; 2],
    pub report: Report,
}

impl Told {
    fn of((report, answer): (Report, Result<(), Refusal>)) -> Told {
        Told { refused: Refusal::told(&answer), report }
    }

    /// Whether every number of the report is zero, as in a refusal.
    pub fn zero(&self) -> bool {
        let Report { words, measures, tables } = &self.report;
        words.iter().all(|&x| x == 0)
            && measures.iter().all(|x| x.to_bits() == 0)
            && tables.iter().all(|&x| x == 0)
    }
}

impl Lent {
    /// For so many gates, qubits and operations; `more` places more in each slice.
    pub fn new(gates: usize, n: usize, operations: usize, more: usize) -> Lent {
        Lent {
            work: Work {
                floats: vec![OLD; work_floats(gates, n) + more],
                marks: vec![OLD_MARK; work_marks(gates, n) + more],
            },
            ops: vec![OLD; OP_PLACES * operations + more],
            state: vec![OLD; state_places(n) + more],
            more,
        }
    }

    /// One place less in the slice that the question asks about: work's floats, operations or state; none if it has no place.
    pub fn short(mut self, asked: u64) -> Option<Lent> {
        let slice = match asked {
            question::WORK => &mut self.work.floats,
            question::OPERATIONS => &mut self.ops,
            question::STATE => &mut self.state,
            _ => panic!("question {asked} asks about no such slice"),
        };
        slice.pop().map(|_| self)
    }

    pub fn compile(&mut self, tape: &[u8]) -> Told {
        Told::of(jozkeral::compile(tape, &mut self.work, &mut self.ops))
    }

    pub fn run(&mut self, tape: &[u8]) -> Told {
        Told::of(jozkeral::run(tape, &mut self.work, &mut self.ops, &mut self.state))
    }

    /// The operations.
    pub fn ops(&self) -> &[f64] {
        needed(&self.ops, self.more).0
    }

    /// The state.
    pub fn state(&self) -> &[f64] {
        needed(&self.state, self.more).0
    }

    /// Whether the slices are as they must be after a call that gave this number: all as they were up to 9, work zero from
    /// there on, operations written by 0 only, and the state if it also was a run.
    pub fn kept(&self, number: u64, ran: bool) -> bool {
        let old = |xs: &[f64]| xs.iter().all(|&x| x == OLD);
        let (floats, last_floats) = needed(&self.work.floats, self.more);
        let (marks, last_marks) = needed(&self.work.marks, self.more);
        let worked = match number {
            question::HEADER..=question::WORK => {
                old(floats) && marks.iter().all(|&x| x == OLD_MARK)
            }
            _ => floats.iter().all(|x| x.to_bits() == 0) && marks.iter().all(|&x| x == 0),
        };
        worked
            && old(last_floats)
            && last_marks.iter().all(|&x| x == OLD_MARK)
            && old(needed(&self.ops, self.more).1)
            && old(needed(&self.state, self.more).1)
            && (number == 0 || old(&self.ops))
            && (number == 0 && ran || old(&self.state))
    }

    /// The answer in the oracle's form; entries of tables from n on are left out if they are zero.
    pub fn compiled(&self, told: &Told, n: usize) -> Compiled {
        let table = |which: usize| {
            let (used, unused) = told.report.table(which).split_at(n);
            let all = if unused.iter().all(|&x| x == 0) { used } else { unused };
            all.iter().map(|&x| x.into()).collect()
        };
        Compiled {
            refused: told.refused,
            report: told.report.words,
            measures: told.report.measures,
            tables: [table::ORDER, table::STARTS, table::MODES].map(table),
            ops: self.ops().to_vec(),
        }
    }
}

/// The places that must be there, and the others.
fn needed<T>(slice: &[T], more: usize) -> (&[T], &[T]) {
    slice.split_at(slice.len() - more)
}

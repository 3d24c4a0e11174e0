//! An engine for tests of what stands around the engine: it answers what it was told to.

use super::{Compiled, Engine, Number, Operation, Ordering, Refusal, Report, Run, State};
use crate::layout::{question, HEADER_BYTES};

/// Bytes of a gate: these tests have one-qubit gates with a code only.
const GATE: u64 = 4;

pub struct Fake {
    pub compiled: Compiled,
    /// The number with which tapes of more than `accepted` gates are refused, if there is one.
    pub number: Option<u64>,
    pub accepted: u64,
    pub parities: Vec<f64>,
    /// Refuses every listed qubit, which no engine may.
    pub silent: bool,
}

impl Fake {
    /// Accepts everything, with these parities.
    pub fn accepting(parities: &[f64]) -> Fake {
        let n = parities.len();
        let report = Report {
            n,
            blocks: 3,
            two_qubit: 2,
            gaussian: 3,
            bad: 0,
            nonadjacent: 0,
            interactions: 0,
            swaps: 1,
            number_conserving: true,
            exact: true,
            free: true,
            angled: false,
            ordering: Ordering::Identity,
            fraction: 1.0,
            max_residual: 2.2e-16,
            order: (0..n).collect(),
            starts: (0..n).map(|k| k == 0).collect(),
            modes: (0..n).collect(),
        };
        let one = |mode| Operation::One { mode, map: [0.0; 4] };
        let two = |mode| Operation::Two { mode, map: [0.0; 16] };
        let operations = (0..n).map(one).chain((1..n).map(|k| two(k - 1))).collect();
        Fake {
            compiled: Compiled { report, operations },
            number: None,
            accepted: u64::MAX,
            parities: parities.to_vec(),
            silent: false,
        }
    }

    /// Refuses to run, and reports a bad block in tapes of more than so many gates.
    pub fn refusing(n: usize, number: u64, accepted: u64) -> Fake {
        Fake { number: Some(number), accepted, ..Fake::accepting(&vec![1.0; n]) }
    }
}

impl Engine for Fake {
    fn compile(&self, tape: &[u8]) -> Result<Compiled, Refusal> {
        let header = HEADER_BYTES as u64;
        let gates = (tape.len() as u64 - header) / GATE;
        let mut compiled = self.compiled.clone();
        match self.number {
            Some(number @ question::HEADER..=question::ENTRY) => {
                return Err(Refusal { number, place: header + GATE * self.accepted })
            }
            Some(_) if gates > self.accepted => compiled.report.bad = 1,
            _ => {}
        }
        Ok(compiled)
    }

    fn run(&self, tape: &[u8]) -> Result<Run, Refusal> {
        let compiled = self.compile(tape)?;
        match self.number {
            Some(number) => Err(Refusal { number, place: 0 }),
            None => {
                let n = self.parities.len();
                Ok(Run { compiled, state: State { n, places: vec![], modes: vec![] } })
            }
        }
    }

    /// The product of the parities; the first that is zero is found in the row of its place.
    fn expectation_z_product(&self, state: &State, qubits: &[usize]) -> Result<Number, Refusal> {
        match qubits.iter().position(|q| self.silent || *q >= state.n) {
            Some(place) => Err(Refusal { number: question::LISTED, place: place as u64 }),
            None => {
                let value = qubits.iter().map(|q| self.parities[*q]).product();
                let row = qubits.iter().position(|q| self.parities[*q] == 0.0);
                Ok(Number { value, row: row.map(|place| 2 * place) })
            }
        }
    }

    /// A small one, but 0 if the list contradicts itself, or names a qubit whose parity is that of the other bit, which is
    /// found in the row of its place, or one whose parity is 0.5.
    fn marginal_probability(
        &self,
        _: &State,
        qubits: &[usize],
        bits: &[u8],
    ) -> Result<Number, Refusal> {
        let mut parts = qubits.iter().zip(bits);
        let contrary = |(q, b)| parts.clone().any(|(p, c)| p == q && c != b);
        if parts.clone().any(contrary) {
            return Ok(Number::from(0.0));
        }
        let other = |(q, b): (&usize, &u8)| self.parities[*q] == f64::from(*b) * 2.0 - 1.0;
        let row = parts.position(other).map(|place| 2 * place);
        let zero = row.is_some() || qubits.iter().any(|q| self.parities[*q] == 0.5);
        Ok(Number { value: if zero { 0.0 } else { 1.25e-7 }, row })
    }

    /// 1 for the index 2.
    fn probability(&self, _: &State, index: u128) -> Result<f64, Refusal> {
        Ok(if index == 2 { 1.0 } else { 0.0 })
    }

    /// Each shot has the qubits whose draw is a half or more.
    fn sample(&self, state: &State, shots: usize, draws: &[f64]) -> Result<Vec<u128>, Refusal> {
        if let Some(place) = draws.iter().position(|x| !(0.0..1.0).contains(x)) {
            return Err(Refusal { number: question::DRAW, place: place as u64 });
        }
        let shot = |d: &[f64]| d.iter().rev().fold(0, |x, d| 2 * x + u128::from(*d >= 0.5));
        Ok(draws.chunks(state.n).take(shots).map(shot).collect())
    }
}

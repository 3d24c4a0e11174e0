//! Gate lists and their text: a header, one gate a line, then one query a line.

use crate::query::{self, Query};
use crate::{bits, gate_text};
use original::circuit::{check_gate, Circuit};
use original::engines::gaussian::detect::DetectOptions;
use original::engines::gaussian::state::{GaussianOptions, InteractionPolicy};
use original::gate::Gate;
use original::given_gates;
use std::fmt;

/// Flag bit 0: swaps are relabelled.
pub const RELABEL: u8 = 1;
/// Flag bit 1: the wires may be reordered.
pub const REORDER: u8 = 2;
/// Flag bit 2: interactions are dropped.
pub const DROP: u8 = 4;

/// The line between two lists.
pub const SEPARATOR: &str = "--";

/// What one tape says, and what is asked afterwards.
#[derive(Clone, Debug)]
pub struct List {
    pub n: usize,
    pub flags: u8,
    pub tol: f64,
    pub limit: u64,
    pub gates: Vec<Gate>,
    pub queries: Vec<Query>,
}

impl List {
    /// Whether a flag is set.
    pub fn has(&self, flag: u8) -> bool {
        self.flags & flag != 0
    }

    /// The original's circuit.
    pub fn circuit(&self) -> Circuit {
        let mut c = Circuit::new(self.n);
        for &g in &self.gates {
            c.gate(g);
        }
        c
    }

    /// The circuit of the tree `given`.
    pub fn given_circuit(&self) -> given_gates::Circuit {
        let list = self.gates.iter().map(|&g| g.into()).collect();
        given_gates::Circuit { num_qubits: self.n, list }
    }

    /// The original's settings.
    pub fn options(&self) -> GaussianOptions {
        let detect = DetectOptions {
            tol: self.tol,
            relabel_swaps: self.has(RELABEL),
            reorder: self.has(REORDER),
        };
        let interactions = match self.has(DROP) {
            true => InteractionPolicy::Drop,
            false => InteractionPolicy::Refuse,
        };
        GaussianOptions { detect, interactions, max_bytes: u128::from(self.limit) }
    }
}

/// The lists of a text.
pub fn parse_many(text: &str) -> Result<Vec<List>, String> {
    let mut lists = Vec::new();
    let mut current: Option<List> = None;
    for (at, line) in text.lines().enumerate() {
        let line = line.trim();
        if line == SEPARATOR {
            lists.extend(current.take());
        } else if !line.is_empty() && !line.starts_with('#') {
            let words: Vec<&str> = line.split_whitespace().collect();
            add_line(&mut current, &words).map_err(|e| format!("line {}: {e}", at + 1))?;
        }
    }
    lists.extend(current);
    Ok(lists)
}

/// Takes one line: the header if there is no list yet, else a query or a gate.
fn add_line(current: &mut Option<List>, words: &[&str]) -> Result<(), String> {
    let Some(list) = current else {
        *current = Some(header(words)?);
        return Ok(());
    };
    if let Some(q) = query::parse(words) {
        let q = q?;
        check_draws(&q, list.n)?;
        list.queries.push(q);
        return Ok(());
    }
    let gate = gate_text::parse(words)?;
    check_gate(&gate, list.n).map_err(|e| e.to_string())?;
    if !list.queries.is_empty() {
        return Err("a gate stands after a query".to_string());
    }
    list.gates.push(gate);
    Ok(())
}

fn header(words: &[&str]) -> Result<List, String> {
    let [n, flags, tol, limit] = words else {
        return Err("a header has four words: n, flags, tolerance, limit".to_string());
    };
    let list = List {
        n: gate_text::number(n)?,
        flags: gate_text::number(flags)?,
        tol: bits::parse(tol)?,
        limit: gate_text::number(limit)?,
        gates: Vec::new(),
        queries: Vec::new(),
    };
    if list.flags > 7 {
        return Err("flags are at most 7".to_string());
    }
    Ok(list)
}

/// The original takes its draws from an endless source, so a list must have all that a sample uses.
fn check_draws(q: &Query, n: usize) -> Result<(), String> {
    match q {
        Query::Sample(shots, draws) if n.saturating_mul(*shots) > draws.len() => {
            Err(format!("{shots} shots take {n} draws each"))
        }
        _ => Ok(()),
    }
}

impl fmt::Display for List {
    fn fmt(&self, f: &mut fmt::Formatter<'_>) -> fmt::Result {
        writeln!(f, "{} {} {} {}", self.n, self.flags, bits::text(self.tol), self.limit)?;
        for g in &self.gates {
            writeln!(f, "{}", gate_text::text(g))?;
        }
        for q in &self.queries {
            writeln!(f, "{q}")?;
        }
        Ok(())
    }
}

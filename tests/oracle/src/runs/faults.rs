//! The engine's `apply` written again, with a fault of the signs if one is asked for: what a stored tape must show, and what `bench plain` and
//! `bench strings` must tell apart.

use crate::layout::{kind, OP_PLACES};
use original::access::state::access::det;

#[derive(Clone, Copy, Debug, PartialEq)]
pub enum Fault {
    None,
    /// Later modes never turn.
    NoTurn,
    /// The turn of one operation is lost.
    Lost(usize),
    /// The operation's own modes turn with the later ones.
    TurnOwn,
    /// Only the next mode turns.
    TurnNext,
    /// The signs of the operation's own modes are not settled before it.
    Unsettled,
}

/// The faults that every list of signs must show.
pub const FAULTS: [Fault; 4] = [Fault::NoTurn, Fault::TurnOwn, Fault::TurnNext, Fault::Unsettled];

/// Z of every mode after the operations, from the vacuum.
pub fn z(n: usize, ops: &[f64], fault: Fault) -> Vec<f64> {
    let state = after(n, ops, fault);
    (0..n).map(|mode| state.entry(2 * mode, 2 * mode + 1)).collect()
}

/// The covariance after each of the operations, by rows. They pass 17, and none is an interaction.
pub fn along(n: usize, ops: &[Vec<f64>], fault: Fault) -> Vec<Vec<f64>> {
    let mut state = State::vacuum(n);
    let after = |(k, op): (usize, &Vec<f64>)| {
        state.apply(k, &op[..OP_PLACES], fault);
        state.covariance()
    };
    ops.iter().enumerate().map(after).collect()
}

/// The covariance after all of the operations, by rows; interactions are passed over.
pub fn covariance(n: usize, ops: &[f64], fault: Fault) -> Vec<f64> {
    after(n, ops, fault).covariance()
}

fn after(n: usize, ops: &[f64], fault: Fault) -> State {
    let mut state = State::vacuum(n);
    let maps = ops.chunks(OP_PLACES).enumerate().filter(|(_, op)| op[0] != kind::INTERACTION);
    maps.for_each(|(k, op)| state.apply(k, op, fault));
    state
}

/// The operations that turn later modes.
pub fn turns(n: usize, ops: &[f64]) -> Vec<usize> {
    let turns = |op: &[f64]| {
        op[0] != kind::INTERACTION && is_odd(op) && width(op) + 2 * (op[1] as usize) < 2 * n
    };
    ops.chunks(OP_PLACES).enumerate().filter(|(_, op)| turns(op)).map(|(k, _)| k).collect()
}

/// Operators that a map is on.
fn width(op: &[f64]) -> usize {
    if op[0] == kind::ONE {
        2
    } else {
        4
    }
}

fn is_odd(op: &[f64]) -> bool {
    match width(op) {
        2 => det::<2>(&op[2..6]) < 0.0,
        _ => det::<4>(&op[2..OP_PLACES]) < 0.0,
    }
}

struct State {
    dim: usize,
    m: Vec<Vec<f64>>,
    d: Vec<f64>,
}

impl State {
    fn vacuum(n: usize) -> State {
        let dim = 2 * n;
        let mut m = vec![vec![0.0; dim]; dim];
        for k in 0..n {
            (m[2 * k][2 * k + 1], m[2 * k + 1][2 * k]) = (1.0, -1.0);
        }
        State { dim, m, d: vec![1.0; dim] }
    }

    fn entry(&self, a: usize, b: usize) -> f64 {
        self.m[a][b] * self.d[a] * self.d[b]
    }

    fn covariance(&self) -> Vec<f64> {
        (0..self.dim * self.dim).map(|k| self.entry(k / self.dim, k % self.dim)).collect()
    }

    fn apply(&mut self, k: usize, op: &[f64], fault: Fault) {
        let (first, width) = (2 * op[1] as usize, width(op));
        let own = first..first + width;
        if fault != Fault::Unsettled {
            own.clone().for_each(|i| self.settle(i));
        }
        let q = |i: usize, j: usize| op[2 + width * i + j];
        for c in 0..self.dim {
            let old: Vec<f64> = own.clone().map(|r| self.m[r][c]).collect();
            own.clone().for_each(|r| {
                self.m[r][c] = (0..width).map(|j| q(r - first, j) * old[j]).sum();
            });
        }
        for row in &mut self.m {
            let old = row[own.clone()].to_vec();
            own.clone().for_each(|c| {
                row[c] = (0..width).map(|j| q(c - first, j) * old[j]).sum();
            });
        }
        let turned = match fault {
            Fault::NoTurn => 0..0,
            Fault::Lost(lost) if lost == k => 0..0,
            Fault::TurnOwn => first..self.dim,
            Fault::TurnNext => own.end..self.dim.min(own.end + 2),
            _ => own.end..self.dim,
        };
        if is_odd(op) {
            self.d[turned].iter_mut().for_each(|x| *x = -*x);
        }
    }

    /// The sign of one operator into the matrix.
    fn settle(&mut self, i: usize) {
        if self.d[i] < 0.0 {
            self.m[i].iter_mut().for_each(|x| *x = -*x);
            self.m.iter_mut().for_each(|row| row[i] = -row[i]);
            self.d[i] = 1.0;
        }
    }
}

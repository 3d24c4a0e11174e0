//! A second plain engine, a program of its own beside the one in Rattle: it holds the covariance alone, and where a determinant is below
//! zero it turns all later rows and columns at once. There are no signs beside the matrix, so it has nothing to settle.

pub mod beside;
pub mod lists;

use crate::bits::same;
use crate::layout::{kind, question, OP_PLACES};
use original::access::state::access::det;

/// A fault at a determinant below zero, for a copy that must be seen to differ.
#[derive(Clone, Copy, Debug, PartialEq)]
pub enum Fault {
    None,
    /// The operation's own rows and columns turn with the later ones.
    TurnOwn,
    /// Rows turn, columns do not.
    RowsOnly,
    /// Nothing turns after a map of two modes.
    NeverTwo,
}

/// Each of them.
pub const FAULTS: [Fault; 3] = [Fault::TurnOwn, Fault::RowsOnly, Fault::NeverTwo];

/// A map of the operators from the first on, by rows: two of one mode, four of two.
pub struct Map<'a> {
    first: usize,
    width: usize,
    q: &'a [f64],
}

impl Map<'_> {
    /// The determinant: the original's own, since another one would differ by rounding.
    pub fn det(&self) -> f64 {
        match self.width {
            2 => det::<2>(self.q),
            _ => det::<4>(self.q),
        }
    }

    /// Whether it turns later modes, and there are some among n.
    pub fn turns(&self, n: usize) -> bool {
        self.later() < 2 * n && self.det() < 0.0
    }

    pub fn of_two_modes(&self) -> bool {
        self.width == 4
    }

    /// The first operator of the modes after its own.
    fn later(&self) -> usize {
        self.first + self.width
    }
}

/// Question 17 of an operation on n modes: its map, none if it is an interaction; or the number.
pub fn asked(n: usize, op: &[f64]) -> Result<Option<Map<'_>>, u64> {
    let modes = match op {
        _ if op.len() < OP_PLACES => return Err(question::OPERATION),
        [kind::ONE, ..] => 1,
        [kind::TWO, ..] => 2,
        [kind::INTERACTION, ..] => return Ok(None),
        _ => return Err(question::OPERATION),
    };
    let whole = op[1] >= 0.0 && op[1].fract() == 0.0;
    if !whole || op[1] + modes as f64 > n as f64 {
        return Err(question::OPERATION);
    }
    let width = 2 * modes;
    Ok(Some(Map { first: 2 * op[1] as usize, width, q: &op[2..][..width * width] }))
}

/// The covariance of n modes, by rows.
#[derive(Clone)]
pub struct Plain {
    rows: Vec<Vec<f64>>,
    fault: Fault,
}

impl Plain {
    pub fn vacuum(n: usize) -> Plain {
        Plain::faulty(n, Fault::None)
    }

    /// The vacuum of a copy with a fault.
    pub fn faulty(n: usize, fault: Fault) -> Plain {
        let mut rows = vec![vec![0.0; 2 * n]; 2 * n];
        for k in 0..n {
            (rows[2 * k][2 * k + 1], rows[2 * k + 1][2 * k]) = (1.0, -1.0);
        }
        Plain { rows, fault }
    }

    /// The entries, row after row.
    pub fn entries(&self) -> Vec<f64> {
        self.rows.concat()
    }

    /// Applies an operation: 0, or the number of the question that it fails.
    pub fn apply(&mut self, op: &[f64]) -> u64 {
        match asked(self.rows.len() / 2, op) {
            Err(number) => return number,
            Ok(None) => {}
            Ok(Some(map)) => self.step(&map),
        }
        0
    }

    fn step(&mut self, map: &Map) {
        self.map_rows(map);
        self.rows.iter_mut().for_each(|row| map_columns(row, map));
        if map.det() < 0.0 {
            self.turn(map);
        }
    }

    fn map_rows(&mut self, map: &Map) {
        for c in 0..self.rows.len() {
            let own = self.rows[map.first..map.later()].iter_mut().map(|row| &mut row[c]);
            under(map, own.collect());
        }
    }

    /// All later rows, then all later columns.
    fn turn(&mut self, map: &Map) {
        let from = match self.fault {
            Fault::TurnOwn => map.first,
            Fault::NeverTwo if map.of_two_modes() => return,
            _ => map.later(),
        };
        self.rows[from..].iter_mut().for_each(|row| negate(row));
        if self.fault != Fault::RowsOnly {
            self.rows.iter_mut().for_each(|row| negate(&mut row[from..]));
        }
    }
}

fn map_columns(row: &mut [f64], map: &Map) {
    under(map, row[map.first..map.later()].iter_mut().collect());
}

/// Numbers put under the map. Each sum starts at 0.0 and goes from left to right, as the original's (`sum` starts at -0.0).
fn under(map: &Map, places: Vec<&mut f64>) {
    let old: Vec<f64> = places.iter().map(|x| **x).collect();
    for (place, q) in places.into_iter().zip(map.q.chunks(map.width)) {
        *place = q.iter().zip(&old).fold(0.0, |sum, (q, x)| sum + q * x);
    }
}

fn negate(numbers: &mut [f64]) {
    numbers.iter_mut().for_each(|x| *x = -*x);
}

/// The entries after each operation from the vacuum, by a copy with a fault.
pub fn along(n: usize, ops: &[Vec<f64>], fault: Fault) -> Vec<Vec<f64>> {
    let mut plain = Plain::faulty(n, fault);
    let after = |op: &Vec<f64>| {
        plain.apply(op);
        plain.entries()
    };
    ops.iter().map(after).collect()
}

/// Whether all numbers are the same, the two zeros being one, and all NaNs.
pub fn same_but_zeros(a: &[f64], b: &[f64]) -> bool {
    a.len() == b.len() && a.iter().zip(b).all(|(a, b)| same(a + 0.0, b + 0.0))
}

/// Whether all that stands after each operation is.
pub fn same_along(a: &[Vec<f64>], b: &[Vec<f64>]) -> bool {
    a.len() == b.len() && a.iter().zip(b).all(|(a, b)| same_but_zeros(a, b))
}

/// The covariance that a slice holds: m times the sign of the row, then that of the column.
pub fn covariance(n: usize, slice: &[f64]) -> Vec<f64> {
    let dim = 2 * n;
    let (m, signs) = slice[..dim * dim + dim].split_at(dim * dim);
    (0..dim * dim).map(|k| m[k] * signs[k / dim] * signs[k % dim]).collect()
}

//! What the lists of a family show: turns of later modes, and copies with a fault that come to another covariance after some operation. A
//! comparison that no fault could fail would show nothing.

use super::SMALL;
use crate::table;
use oracle::plain::{self, asked, same_along, Fault};
use oracle::runs::faults::{self, Fault as Postponed};
use Count::*;

#[derive(Clone, Copy)]
pub enum Count {
    Lists,
    /// Lists on more modes than most.
    Wide,
    Operations,
    Interactions,
    Refused,
    /// Maps whose determinant is zero.
    Zero,
    /// Lists that end with a NaN among the entries, and with an infinite one.
    Nan,
    Infinite,
    /// Lists that turn later modes, and that do so by a map of two modes.
    Turning,
    ByTwo,
    /// Lists on which a faulty plain engine comes to another entry.
    TurnOwn,
    RowsOnly,
    NeverTwo,
    /// And a copy of the engine that does not settle the signs that it postpones; and one without a fault.
    Unsettled,
    Copy,
}

/// The lines of the table.
const LINES: [(Count, &str); 15] = [
    (Lists, "lists"),
    (Wide, "on 12, 60 or 128 modes"),
    (Operations, "operations"),
    (Interactions, "of them interactions"),
    (Refused, "refused"),
    (Zero, "determinant zero"),
    (Nan, "lists with a NaN at the end"),
    (Infinite, "with an infinite entry"),
    (Turning, "lists that turn later modes"),
    (ByTwo, "that do by a map of two"),
    (TurnOwn, "another entry: own rows turn"),
    (RowsOnly, "columns do not turn"),
    (NeverTwo, "no turn after maps of two"),
    (Unsettled, "signs are not settled"),
    (Copy, "engine copied without a fault"),
];

/// In each family: of which lists so many in five must turn later modes, and those that turn must show each fault.
const SHOWN: [(Count, Count, usize); 6] = [
    (Turning, Lists, 2),
    (ByTwo, Lists, 2),
    (TurnOwn, Turning, 3),
    (RowsOnly, Turning, 3),
    (NeverTwo, ByTwo, 2),
    (Unsettled, Turning, 2),
];

/// Of all lists at least one in so many turns later modes, ends with a NaN or with an infinite entry; and there are maps whose determinant is zero for one
/// list in so many.
const LEAST: [(Count, usize); 4] = [(Turning, 2), (Nan, 8), (Infinite, 20), (Zero, 2)];

#[derive(Clone, Copy, Default)]
pub struct Seen([usize; LINES.len()]);

impl Seen {
    fn of(&self, count: Count) -> usize {
        self.0[count as usize]
    }

    fn note(&mut self, count: Count, more: usize) {
        self.0[count as usize] += more;
    }

    /// A list that ends with this covariance.
    pub fn add(&mut self, n: usize, ops: &[Vec<f64>], entries: &[f64]) {
        let passed: Vec<_> = ops.iter().map(|op| asked(n, op)).collect();
        let maps = || passed.iter().filter_map(|map| map.as_ref().ok()?.as_ref());
        let turns = || maps().filter(|map| map.turns(n));
        self.note(Lists, 1);
        self.note(Wide, usize::from(n > SMALL));
        self.note(Operations, ops.len());
        self.note(Interactions, passed.iter().filter(|map| matches!(map, Ok(None))).count());
        self.note(Refused, passed.iter().filter(|map| map.is_err()).count());
        self.note(Zero, maps().filter(|map| map.det() == 0.0).count());
        self.note(Nan, entries.iter().any(|x| x.is_nan()).into());
        self.note(Infinite, entries.iter().any(|x| x.is_infinite()).into());
        self.note(Turning, turns().next().is_some().into());
        self.note(ByTwo, turns().any(|map| map.of_two_modes()).into());
        self.faulty(n, ops);
    }

    fn faulty(&mut self, n: usize, ops: &[Vec<f64>]) {
        let is_map = |op: &&Vec<f64>| matches!(asked(n, op), Ok(Some(_)));
        let maps: Vec<Vec<f64>> = ops.iter().filter(is_map).cloned().collect();
        let right = plain::along(n, &maps, Fault::None);
        let mut other = |count: Count, along: Vec<Vec<f64>>| {
            self.note(count, usize::from(!same_along(&along, &right)));
        };
        other(TurnOwn, plain::along(n, &maps, Fault::TurnOwn));
        other(RowsOnly, plain::along(n, &maps, Fault::RowsOnly));
        other(NeverTwo, plain::along(n, &maps, Fault::NeverTwo));
        other(Unsettled, faults::along(n, &maps, Postponed::Unsettled));
        other(Copy, faults::along(n, &maps, Postponed::None));
    }

    /// Whether lists turn and every fault shows often enough, and the copy without one never.
    fn shows(&self) -> bool {
        let often = |(fault, of, fifths)| 5 * self.of(fault) >= fifths * self.of(of);
        SHOWN.into_iter().all(often) && self.of(Copy) == 0
    }
}

/// Prints a line for each count, with a number for each family and for all; whether every family shows the faults, and all of them together what
/// there must be.
pub fn end(families: &[(&str, Seen)]) -> bool {
    let mut all = Seen::default();
    families
        .iter()
        .for_each(|(_, seen)| LINES.iter().for_each(|row| all.note(row.0, seen.of(row.0))));
    let counts = |count: Count| families.iter().map(|(_, seen)| seen.of(count)).collect();
    let names: Vec<&str> = families.iter().map(|(name, _)| *name).collect();
    table::print("plain", &names, &LINES.map(|(count, first)| (first, counts(count))));
    let least = |(count, one): (Count, usize)| one * all.of(count) >= all.of(Lists);
    families.iter().all(|(_, seen)| seen.shows()) && LEAST.into_iter().all(least)
}

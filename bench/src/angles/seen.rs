//! What the lists of a family show: how many there are of each kind, and on how many a faulty copy of the engine's evolution is told from the state
//! vector.

use super::{ENTRIES, KINDS, SHOT_BITS};
use crate::table;
use oracle::runs::faults::Fault;
use Count::*;

#[derive(Clone, Copy)]
pub enum Count {
    Lists,
    Accepted,
    /// By 12 and by 13.
    RefusedBad,
    RefusedInteraction,
    /// An interaction is dropped.
    Dropped,
    /// Single gates that are near a matchgate, and left out.
    Near,
    /// The mode table is not the identity.
    Reordered,
    /// Operations with determinant -1 before later modes.
    Turning,
    Repeated,
    Agreeing,
    Contradicting,
    /// Draws next to a chance, or after what has hardly a chance.
    NearDraws,
}

const LINES: [(Count, &str); 12] = [
    (Lists, "lists"),
    (Accepted, "accepted"),
    (RefusedBad, "refused by 12"),
    (RefusedInteraction, "refused by 13"),
    (Dropped, "with an interaction dropped"),
    (Near, "near a matchgate, left out"),
    (Reordered, "modes in another order"),
    (Turning, "lists that turn later modes"),
    (Repeated, "products with a qubit repeated"),
    (Agreeing, "marginals with one repeated"),
    (Contradicting, "with both bits"),
    (NearDraws, "draws left out"),
];

/// Copies of the engine's evolution: faulty ones, then one without a fault.
pub const FAULTY: [Fault; 5] =
    [Fault::NoTurn, Fault::TurnOwn, Fault::TurnNext, Fault::Unsettled, Fault::None];
const NAMES: [&str; FAULTY.len()] =
    ["no turn", "own rows too", "next mode only", "not settled", "copy without a fault"];

/// What tells a fault, and on one in how many of the lists that turn later modes at least.
const BY: [(&str, usize); 3] = [("entries", 3), ("single z", 6), ("products", 6)];

/// Of one count there must be another for every so many.
const LEAST: [(Count, Count, usize); 9] = [
    (Accepted, Lists, 2),
    (RefusedBad, Lists, 50),
    (RefusedInteraction, Lists, 200),
    (Dropped, Accepted, 20),
    (Reordered, Accepted, 5),
    (Turning, Accepted, 2),
    (Repeated, Accepted, 1),
    (Agreeing, Accepted, 1),
    (Contradicting, Accepted, 2),
];

/// At most one draw is left out for so many accepted lists.
const DRAWS_LEFT_OUT: usize = 20;

#[derive(Default)]
pub struct Seen {
    counts: [usize; LINES.len()],
    /// Of each kind, how many numbers are apart from 0, 1 and -1.
    between: [usize; KINDS.len()],
    faults: [[usize; BY.len()]; FAULTY.len()],
    /// The largest difference.
    worst: f64,
}

impl Seen {
    fn of(&self, count: Count) -> usize {
        self.counts[count as usize]
    }

    pub fn note(&mut self, count: Count, more: usize) {
        self.counts[count as usize] += more;
    }

    /// A value, and how far from it the library's number is.
    pub fn number(&mut self, kind: usize, value: f64, apart: f64) {
        let whole = (value - value.round()).abs() < 1e-6;
        self.between[kind] += usize::from(!whole);
        self.worst = self.worst.max(apart);
    }

    pub fn fault(&mut self, which: usize, told: [bool; BY.len()]) {
        let counts = self.faults[which].iter_mut().zip(told);
        counts.for_each(|(count, told)| *count += usize::from(told));
    }
}

/// Prints a line for each count; whether there is enough of everything, every fault is told often enough, and the copy without one never.
pub fn end(families: &[(&str, Seen)]) -> bool {
    let names: Vec<&str> = families.iter().map(|family| family.0).collect();
    let column =
        |of: &dyn Fn(&Seen) -> usize| families.iter().map(|family| of(&family.1)).collect();
    let mut lines: Vec<(String, Vec<usize>)> =
        LINES.iter().map(|&(count, line)| (line.into(), column(&|seen| seen.of(count)))).collect();
    for k in numbers() {
        let line = format!("{} apart from 0 and 1", KINDS[k]);
        lines.push((line, column(&|seen| seen.between[k])));
    }
    for (f, name) in NAMES.iter().enumerate() {
        for (k, (by, _)) in BY.iter().enumerate() {
            lines.push((format!("{name}, by {by}"), column(&|seen| seen.faults[f][k])));
        }
    }
    let lines: Vec<_> = lines.iter().map(|(first, counts)| (&first[..], counts.clone())).collect();
    table::print("angles", &names, &lines);
    let worst = families.iter().map(|family| family.1.worst).fold(0.0, f64::max);
    println!("largest difference {worst:e}");
    well(families)
}

/// The kinds whose values lie between 0 and 1, or -1 and 1.
fn numbers() -> impl Iterator<Item = usize> {
    (ENTRIES..KINDS.len()).filter(|&k| k != SHOT_BITS)
}

fn well(families: &[(&str, Seen)]) -> bool {
    let all =
        |of: &dyn Fn(&Seen) -> usize| families.iter().map(|family| of(&family.1)).sum::<usize>();
    let count = |count: Count| all(&|seen: &Seen| seen.of(count));
    let enough = LEAST.iter().all(|&(one, of, many)| many * count(one) >= count(of));
    let told = |f: usize, k: usize| all(&|seen: &Seen| seen.faults[f][k]);
    let faults = NAMES.len() - 1;
    let faulty = (0..faults).all(|f| (0..BY.len()).all(|k| BY[k].1 * told(f, k) >= count(Turning)));
    let copy = (0..BY.len()).all(|k| told(faults, k) == 0);
    let between = numbers().all(|k| all(&|seen: &Seen| seen.between[k]) > 0);
    let drawn = DRAWS_LEFT_OUT * count(NearDraws) <= count(Accepted);
    enough && faulty && copy && between && drawn && count(Turning) > 0
}

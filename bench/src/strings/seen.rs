//! What the tapes of a family show: how many there are of each kind, and on how many a faulty copy of the engine's evolution, over the same operations,
//! is told from the strings. A comparison that no fault could fail would show nothing.

use super::asked::Values;
use crate::layout::OP_PLACES;
use crate::ran::Ran;
use crate::table;
use oracle::list::List;
use oracle::runs::faults::{covariance, turns, Fault, FAULTS};
use Count::*;

#[derive(Clone, Copy)]
pub enum Count {
    Tapes,
    Accepted,
    /// An interaction is dropped.
    Dropped,
    /// A map is no signed permutation.
    NoBlocks,
    /// All are.
    Blocks,
    /// Of these, products are compared with the tape's own gates too.
    Beside,
    /// The mode table is not the identity.
    Reordered,
    /// Operations of tapes with blocks.
    Operations,
    Entries,
    EntriesNot,
    Zs,
    ZsNot,
    Products,
    ProductsNot,
    /// Tapes that turn later modes.
    Turning,
    /// Single turns that are lost alone.
    Turns,
}

/// The lines of the table, before those of faults.
const LINES: [(Count, &str); 16] = [
    (Tapes, "tapes"),
    (Accepted, "accepted"),
    (Dropped, "with an interaction dropped"),
    (NoBlocks, "with a map that is no block"),
    (Blocks, "with blocks only"),
    (Beside, "beside the tape's gates too"),
    (Reordered, "modes in another order"),
    (Operations, "operations"),
    (Entries, "entries"),
    (EntriesNot, "not zero"),
    (Zs, "single z"),
    (ZsNot, "not zero"),
    (Products, "products"),
    (ProductsNot, "not zero"),
    (Turning, "tapes that turn later modes"),
    (Turns, "single turns"),
];

/// The faults, in their order.
const NAMES: [&str; FAULTS.len()] = ["no turn", "own rows too", "next mode only", "not settled"];

/// What tells a fault.
const BY: [&str; 3] = ["entries", "single z", "products"];

/// Modes at most on which single turns are lost.
const SMALL: usize = 12;

/// Of all tapes that turn later modes each fault must be told on one in so many: by entries, by single Zs, by products. And so must single turns that are
/// lost, by entries alone.
const FAULTY: [usize; BY.len()] = [2, 20, 10];
const LOST: usize = 3;

/// Of one count there must be another for every so many.
const LEAST: [(Count, Count, usize); 8] = [
    (Accepted, Tapes, 2),
    (Blocks, Accepted, 2),
    (Beside, Blocks, 2),
    (Reordered, Blocks, 5),
    (Turning, Blocks, 2),
    (EntriesNot, Entries, 40),
    (ZsNot, Zs, 10),
    (ProductsNot, Products, 3),
];

#[derive(Default)]
pub struct Seen {
    counts: [usize; LINES.len()],
    /// Of each fault, and of the copy without one, the tapes on which it is told by entries, by single Zs, by products.
    faults: [[usize; BY.len()]; FAULTS.len()],
    copy: [usize; BY.len()],
    /// Single turns whose loss is told.
    lost: [usize; BY.len()],
}

impl Seen {
    fn of(&self, count: Count) -> usize {
        self.counts[count as usize]
    }

    pub fn note(&mut self, count: Count, more: usize) {
        self.counts[count as usize] += more;
    }

    /// A tape with blocks only.
    pub fn list(&mut self, list: &List, ran: &Ran, values: &Values) {
        let turns = turns(list.n, &ran.ops);
        self.note(Blocks, 1);
        self.note(Reordered, usize::from(!ran.modes.is_sorted()));
        self.note(Operations, ran.ops.len() / OP_PLACES);
        let [entries, zs, products] = values.counts();
        for ([all, not], [count, other]) in [entries, zs, products].into_iter().zip([
            [Entries, EntriesNot],
            [Zs, ZsNot],
            [Products, ProductsNot],
        ]) {
            self.note(count, all);
            self.note(other, not);
        }
        self.note(Turning, usize::from(!turns.is_empty()));
        let told = |fault: Fault| values.told(ran, &covariance(list.n, &ran.ops, fault));
        add(&mut self.copy, told(Fault::None));
        if turns.is_empty() {
            return;
        }
        FAULTS.into_iter().zip(&mut self.faults).for_each(|(fault, count)| add(count, told(fault)));
        if list.n <= SMALL {
            self.note(Turns, turns.len());
            turns.into_iter().for_each(|k| add(&mut self.lost, told(Fault::Lost(k))));
        }
    }
}

fn add(counts: &mut [usize; BY.len()], told: [bool; BY.len()]) {
    counts.iter_mut().zip(told).for_each(|(count, told)| *count += usize::from(told));
}

/// Prints a line for each count; whether there is enough of everything, every fault is told often enough, and the copy without one never.
pub fn end(families: &[(&str, Seen)]) -> bool {
    let names: Vec<&str> = families.iter().map(|(name, _)| *name).collect();
    let counts = |of: &dyn Fn(&Seen) -> usize| -> Vec<usize> {
        families.iter().map(|(_, seen)| of(seen)).collect()
    };
    let sum = |of: &dyn Fn(&Seen) -> usize| counts(of).iter().sum::<usize>();
    let by = |first: &str, of: &dyn Fn(&Seen, usize) -> usize| {
        let line =
            |(k, by): (usize, &&str)| (format!("{first}, by {by}"), counts(&|seen| of(seen, k)));
        BY.iter().enumerate().map(line).collect::<Vec<_>>()
    };
    let line =
        |(count, first): &(Count, &str)| (first.to_string(), counts(&|seen| seen.of(*count)));
    let mut lines: Vec<(String, Vec<usize>)> = LINES.iter().map(line).collect();
    lines.extend(by("lost alone", &|seen, k| seen.lost[k]));
    for (f, fault) in NAMES.iter().enumerate() {
        lines.extend(by(fault, &|seen, k| seen.faults[f][k]));
    }
    lines.extend(by("copy without a fault", &|seen, k| seen.copy[k]));
    let lines: Vec<_> = lines.iter().map(|(first, counts)| (&first[..], counts.clone())).collect();
    table::print("strings", &names, &lines);
    let all = |count: Count| sum(&|seen: &Seen| seen.of(count));
    let enough = LEAST.iter().all(|&(one, of, many)| many * all(one) >= all(of));
    let told = |f: usize, k: usize| FAULTY[k] * sum(&|seen| seen.faults[f][k]) >= all(Turning);
    let faulty = (0..FAULTS.len()).all(|f| (0..BY.len()).all(|k| told(f, k)));
    let lost = LOST * sum(&|seen| seen.lost[0]) >= all(Turns);
    enough && faulty && lost && families.iter().all(|(_, seen)| seen.copy == [0; BY.len()])
}

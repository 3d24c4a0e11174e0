//! What lists show, and what was compared: a comparison that no fault could fail would show nothing.

use super::state::FAULTS;
use crate::table;
use Count::*;

#[derive(Clone, Copy)]
pub enum Count {
    Lists,
    /// The mode table at the end is not the identity.
    Reordered,
    Passed,
    Blocks,
    /// Of several gates.
    Several,
    /// Times a swap.
    Swapped,
    /// With determinant -1.
    Odd,
    /// With such a block before later modes.
    Turning,
    Entries,
    EntriesNot,
    Zs,
    ZsNot,
    Products,
    ProductsNot,
    Repeated,
    Marginals,
    MarginalsNot,
    Agreeing,
    Contradicting,
    Indices,
    IndicesNot,
    Chances,
    ChancesNot,
    /// Outcomes without a chance, after which nothing can be read.
    Ended,
    /// Random gates of one qubit and of two, by their determinants: matchgates and others.
    Matchgates,
    Others,
}

const LINES: [(Count, &str); 26] = [
    (Lists, "lists"),
    (Reordered, "modes in another order"),
    (Passed, "interactions passed over"),
    (Blocks, "blocks"),
    (Several, "of several gates"),
    (Swapped, "times a swap"),
    (Odd, "with determinant -1"),
    (Turning, "lists that turn later modes"),
    (Entries, "entries"),
    (EntriesNot, "not zero"),
    (Zs, "single z"),
    (ZsNot, "not zero"),
    (Products, "products"),
    (ProductsNot, "not zero"),
    (Repeated, "with a qubit repeated"),
    (Marginals, "marginals"),
    (MarginalsNot, "not zero"),
    (Agreeing, "a qubit repeated, one bit"),
    (Contradicting, "with both bits"),
    (Indices, "basis indices"),
    (IndicesNot, "not zero"),
    (Chances, "outcomes, mode by mode"),
    (ChancesNot, "not zero"),
    (Ended, "ended where zero"),
    (Matchgates, "random gates: matchgates"),
    (Others, "others"),
];

/// Of one count there must be another for every so many.
const LEAST: [(Count, Count, usize); 12] = [
    (Reordered, Lists, 2),
    (Passed, Lists, 2),
    (Several, Blocks, 4),
    (Swapped, Blocks, 20),
    (Odd, Blocks, 4),
    (Turning, Lists, 2),
    (EntriesNot, Entries, 4),
    (Repeated, Products, 8),
    (Agreeing, Marginals, 20),
    (Contradicting, Marginals, 20),
    (MarginalsNot, Marginals, 4),
    (Others, Matchgates, 4),
];

/// What tells a fault, and on one in how many of the lists that turn later modes at least.
pub const BY: [(&str, usize); 3] = [("entries", 3), ("single z", 6), ("products", 6)];

/// The wrong engines, in their order.
const NAMES: [&str; FAULTS.len()] = ["no turn", "own rows too", "next mode only", "not settled"];

#[derive(Default)]
pub struct Seen {
    counts: [usize; LINES.len()],
    /// Of each wrong engine, the lists on which it is told.
    faults: [[usize; BY.len()]; FAULTS.len()],
    /// Of each count, those that are not well.
    differ: [usize; LINES.len()],
}

impl Seen {
    pub fn of(&self, count: Count) -> usize {
        self.counts[count as usize]
    }

    pub fn note(&mut self, count: Count, more: usize) {
        self.counts[count as usize] += more;
    }

    /// What is told of the first that is not well is printed.
    pub fn check(&mut self, count: Count, well: bool, told: impl Fn() -> String) {
        if !well && self.differ[count as usize] == 0 {
            println!("{}", told());
        }
        self.differ[count as usize] += usize::from(!well);
    }

    /// The same of one that is counted, and again if its value is not zero.
    pub fn compare(
        &mut self,
        counts: [Count; 2],
        zero: bool,
        well: bool,
        told: &dyn Fn() -> String,
    ) {
        self.note(counts[0], 1);
        self.note(counts[1], usize::from(!zero));
        self.check(counts[0], well, told);
    }

    pub fn fault(&mut self, which: usize, told: [bool; BY.len()]) {
        let counts = self.faults[which].iter_mut().zip(told);
        counts.for_each(|(count, told)| *count += usize::from(told));
    }

    /// Whether there is enough of everything, each wrong engine shows often enough, and nothing differs.
    fn well(&self) -> bool {
        let all = LINES.iter().all(|line| self.of(line.0) > 0);
        let enough = LEAST.iter().all(|&(one, of, many)| many * self.of(one) >= self.of(of));
        let shown = |told: &[usize; BY.len()]| {
            told.iter().zip(BY).all(|(&told, (_, many))| many * told >= self.of(Turning))
        };
        all && enough
            && self.faults.iter().all(shown)
            && self.differ.iter().all(|&differ| differ == 0)
    }
}

/// Prints a line for each count, a column for each kind of numbers; whether all is well with each.
pub fn end(kinds: &[(&str, Seen)]) -> bool {
    let names: Vec<&str> = kinds.iter().map(|kind| kind.0).collect();
    let column = |of: &dyn Fn(&Seen) -> usize| kinds.iter().map(|kind| of(&kind.1)).collect();
    let mut lines: Vec<(String, Vec<usize>)> =
        LINES.iter().map(|&(count, line)| (line.into(), column(&|seen| seen.of(count)))).collect();
    for (f, name) in NAMES.iter().enumerate() {
        for (k, (by, _)) in BY.iter().enumerate() {
            lines.push((format!("{name}, by {by}"), column(&|seen| seen.faults[f][k])));
        }
    }
    lines.push(("differ".into(), column(&|seen| seen.differ.iter().sum())));
    for (k, (_, line)) in LINES.iter().enumerate() {
        if kinds.iter().any(|kind| kind.1.differ[k] > 0) {
            lines.push((format!("of them {line}"), column(&|seen| seen.differ[k])));
        }
    }
    let lines: Vec<_> = lines.iter().map(|(first, counts)| (&first[..], counts.clone())).collect();
    table::print("exact numbers", &names, &lines);
    kinds.iter().all(|kind| kind.1.well())
}

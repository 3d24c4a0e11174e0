//! Whole runs: original and port on the same circuits, from the tape to the answers of every query.

pub mod case;
mod counts;
mod damage;
mod damaged;
mod evolution;
mod known;
mod nearly;
mod ported;
mod short;
mod sides;
mod signs;

use crate::asks;
use crate::layout::question::{APART, LIMIT};
use case::Case;
use counts::Counts;
use damaged::{Source, Tapes};
use oracle::check::{Accepted, Counts as Vectors};
use oracle::families::{phases, wide, Family, FAMILIES};
use oracle::list::List;
use oracle::rng::Rng;
use sides::{How, Seen};
use signs::Signs;

/// Lists of 13 to 128 qubits for each thousand of the others.
const WIDE: usize = 5;
/// Damaged tapes for each list of a family, and those made of one tape.
const DAMAGED: usize = 50;
const COPIES: usize = 10;
/// Gates of a tape that is damaged, mostly.
const FEW: usize = 10;

/// What was seen of all families.
#[derive(Default)]
struct All {
    counts: Counts,
    vectors: Vectors,
    signs: Signs,
    well: bool,
}

/// Compares `count` lists of each family, the short lists, and damaged tapes.
pub fn compare(rng: &mut Rng, count: usize) -> bool {
    let mut all = All { well: true, ..All::default() };
    for (name, family) in FAMILIES.into_iter().chain([("phases", phases::make as Family)]) {
        all.family(name, |each| (0..count).for_each(|_| each(Case::plain(list(rng, family)))));
    }
    all.family("given", |each| {
        for k in 0..count {
            let list = list(rng, FAMILIES[k % FAMILIES.len()].1);
            each(Case::given(rng, list));
        }
    });
    let few = (count * WIDE).div_ceil(1000);
    all.family("wide", |each| (0..few).for_each(|_| each(Case::plain(list(rng, wide::make)))));
    all.family("short", |each| short::lists(|list| each(Case::plain(list))));
    all.damaged(rng, count * DAMAGED);
    all.end()
}

/// Whether a list is accepted, and both sides do the same with it.
pub fn same(list: &List, tape: &[u8]) -> bool {
    let seen = sides::compare(list, tape);
    seen.number == 0 && seen.wrong.is_none()
}

/// A list of a family, with more queries than its own.
fn list(rng: &mut Rng, family: Family) -> List {
    let mut list = family(&mut rng.split());
    list.queries.extend(asks::queries(rng, list.n));
    list
}

impl All {
    /// Compares the cases that `make` hands over.
    fn family(&mut self, name: &str, make: impl FnOnce(&mut dyn FnMut(Case))) {
        let mut counts = Counts::default();
        make(&mut |case: Case| {
            let list = case.original();
            let seen = counts.case(case);
            self.vector(&list, &seen);
            if let (true, Some(ran)) = (name == "signs", &seen.ran) {
                self.signs.add(ran);
            }
        });
        self.well &= counts.end(name);
        self.counts.join(&counts);
    }

    /// The port's answers beside those of a state vector.
    fn vector(&mut self, list: &List, seen: &Seen) {
        if matches!(seen.how, How::NearPhase | How::Foreign) {
            return;
        }
        match (seen.number, &seen.ran) {
            (number @ APART..=LIMIT, _) => self.vectors.add(list, Err(number as u8)),
            (_, Some(ran)) => {
                let ask = |query: &_| ran.slice.ask(query).0;
                let modes = &ran.slice.mode_of_qubit();
                self.vectors.add(list, Ok(Accepted { exact: ran.exact, modes, ask: &ask }));
            }
            _ => {}
        }
    }

    /// Damaged tapes of every family.
    fn damaged(&mut self, rng: &mut Rng, count: usize) {
        let mut tapes = Tapes::default();
        for k in 0..count / COPIES {
            let mut list = FAMILIES[k % FAMILIES.len()].1(&mut rng.split());
            list.gates.truncate(if rng.chance(1, 10) { 40 } else { FEW });
            let source = Source::of(&Case::given(rng, list));
            (0..COPIES).for_each(|_| tapes.add(rng, &source));
        }
        self.well &= tapes.end();
        self.counts.join(tapes.good());
    }

    fn end(self) -> bool {
        let well = self.counts.end("in all");
        print!("runs beside the state vector: {}", self.vectors);
        self.well & well & self.signs.end() & known::end() && self.vectors.wrong == 0
    }
}

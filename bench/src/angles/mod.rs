//! Runs of the library beside a state vector, at any angle: gates come by their matrices, which are products made at random, and every entry of the
//! covariance is compared with its sign, as is every kind of answer.

mod faults;
mod seen;
mod shots;
mod tapes;
mod values;
mod verdicts;

use crate::compare::Tally;
use crate::layout::question;
use crate::ran::Ran;
use oracle::complex::Complex;
use oracle::exact::lists::{List, Shape};
use oracle::exact::maker::list;
use oracle::list::{DROP, RELABEL, REORDER};
use oracle::rng::Rng;
use seen::{Count::*, Seen};
use verdicts::Verdict;

/// Qubits of a list at most.
const MOST: usize = 7;

/// What is compared: the verdict; the places of the operations; every entry; answers of every kind; the bits of shots, beside their draws.
const KINDS: [&str; 8] =
    ["verdicts", "places", "entries", "single z", "products", "marginals", "indices", "shot bits"];
const VERDICTS: usize = 0;
const PLACES: usize = 1;
const ENTRIES: usize = 2;
const ZS: usize = 3;
const PRODUCTS: usize = 4;
const MARGINALS: usize = 5;
const INDICES: usize = 6;
const SHOT_BITS: usize = 7;

const CHAIN: Shape = Shape { order: false, swaps: false, interactions: false, splits: false };

/// Names of families, what their lists have, and the flags that these need; other flags are set at random.
const FAMILIES: [(&str, Shape, u8); 6] = [
    ("chain", CHAIN, 0),
    ("order", Shape { order: true, ..CHAIN }, REORDER),
    ("swaps", Shape { swaps: true, ..CHAIN }, RELABEL),
    ("splits", Shape { splits: true, ..CHAIN }, 0),
    ("dropped", Shape { interactions: true, ..CHAIN }, DROP),
    (
        "mixed",
        Shape { order: true, swaps: true, interactions: true, splits: true },
        RELABEL | REORDER | DROP,
    ),
];

/// Compares so many lists of each family, and as many single gates of which some are no matchgates.
pub fn compare(rng: &mut Rng, count: usize) -> bool {
    let mut all = All { tallies: KINDS.map(Tally::new), seen: Seen::default() };
    let mut families = vec![];
    for (name, shape, needs) in FAMILIES {
        for _ in 0..count {
            let rng = &mut rng.split();
            let flags = needs | rng.below(8) as u8;
            let n = if rng.chance(1, 16) { 1 } else { rng.between(2, MOST) };
            let list = list(rng, n, shape);
            all.case(rng, &list, flags, Verdict::of_blocks(&list));
        }
        families.push((name, std::mem::take(&mut all.seen)));
    }
    for _ in 0..count {
        let rng = &mut rng.split();
        let flags = rng.below(8) as u8;
        match verdicts::gate(rng, flags) {
            Some((list, verdict)) => all.case(rng, &list, flags, verdict),
            None => all.seen.note(Near, 1),
        }
    }
    families.push(("gates", std::mem::take(&mut all.seen)));
    let well = Tally::end_all(all.tallies);
    well & seen::end(&families)
}

struct All {
    tallies: [Tally; KINDS.len()],
    seen: Seen,
}

impl All {
    /// One list. The state vector has no interaction that stands alone; it has one within a gate, and nothing is compared where that is dropped.
    fn case(&mut self, rng: &mut Rng, list: &List<Complex>, flags: u8, verdict: Verdict) {
        self.seen.note(Lists, 1);
        let told = |what: String| format!(" {what}, flags {flags}\n{list:?}");
        let ran = Ran::of(&tapes::tape(list, flags), list.n);
        let got = Verdict::of(&ran);
        self.tallies[VERDICTS].count(got == verdict, || told(format!("{got:?}, not {verdict:?}")));
        self.seen.note(RefusedBad, usize::from(got == Verdict::Refused(question::BAD)));
        let interaction = got == Verdict::Refused(question::INTERACTION);
        self.seen.note(RefusedInteraction, usize::from(interaction));
        let Ok(ran) = ran else { return };
        self.seen.note(Accepted, 1);
        self.seen.note(Dropped, usize::from(!ran.exact));
        self.seen.note(Reordered, usize::from(!ran.modes.is_sorted()));
        let well = ran.readable && ran.kept;
        self.tallies[PLACES].count(well, || told("places of the operations".into()));
        if well && got == Verdict::of_blocks(list) {
            values::compare(self, rng, list, &ran, &told);
        }
    }
}

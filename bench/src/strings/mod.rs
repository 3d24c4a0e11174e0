//! Runs of the library beside signed Pauli strings: where the operations that a run leaves in the caller's slice take such strings to such strings, every
//! entry of the covariance and every product of Z is the value of a string pulled back through them, exactly 0, 1 or -1; and where no interaction was
//! dropped, a product is that of the tape's own gates on qubits.

mod asked;
mod seen;

use crate::compare::Tally;
use crate::ran::Ran;
use crate::runs::case::Case;
use asked::{Asked, Values};
use oracle::list::List;
use oracle::query::Query;
use oracle::rng::Rng;
use oracle::strings::lists::{is_rounded, wide, FAMILIES};
use oracle::strings::{blocks, gates};

use seen::{Count::*, Seen};

/// Wide lists for each thousand of the others.
const WIDE: usize = 5;
/// Largest difference where operations are no blocks, because of rounding.
const CLOSE: f64 = 1e-9;

/// What is compared: the places of the operations; whether they are blocks, if no gate has a rounded number; covariance, single Zs and products beside
/// the strings of the operations; the last two beside those of the tape's gates; refusals of products; and numbers beside the tape's gates where
/// operations are no blocks, within `CLOSE`.
const KINDS: [&str; 9] = [
    "places",
    "blocks",
    "entries",
    "single z",
    "products",
    "tape z",
    "tape product",
    "refusals",
    "nearly",
];
const PLACES: usize = 0;
const BLOCKS: usize = 1;
const ENTRIES: usize = 2;
const ZS: usize = 3;
const PRODUCTS: usize = 4;
const TAPE: [usize; 2] = [5, 6];
const REFUSALS: usize = 7;
const NEARLY: usize = 8;

/// Compares so many tapes of each family, and as many with labels and matrices; and a few wide ones.
pub fn compare(rng: &mut Rng, count: usize) -> bool {
    let mut all = All { tallies: KINDS.map(Tally::new), seen: Seen::default() };
    let mut families = vec![];
    for (name, family) in FAMILIES {
        (0..count).for_each(|_| all.case(rng, name, &|rng| (family(rng), false)));
        families.push((name, std::mem::take(&mut all.seen)));
    }
    let labelled = |rng: &mut Rng| (rng.pick(&FAMILIES).1(rng), true);
    (0..count).for_each(|_| all.case(rng, "labelled", &labelled));
    families.push(("labelled", std::mem::take(&mut all.seen)));
    let few = (count * WIDE).div_ceil(1000);
    (0..few).for_each(|_| all.case(rng, "wide", &|rng| (wide(rng), false)));
    families.push(("wide", std::mem::take(&mut all.seen)));
    let well = Tally::end_all(all.tallies);
    well & seen::end(&families)
}

struct All {
    tallies: [Tally; KINDS.len()],
    seen: Seen,
}

impl All {
    /// One tape; with labels between the gates, half of which come by their matrix, if it says so.
    fn case(&mut self, rng: &mut Rng, family: &str, make: &dyn Fn(&mut Rng) -> (List, bool)) {
        let rng = &mut rng.split();
        let (list, labelled) = make(rng);
        let case = match labelled {
            true => Case::given(rng, list.clone()),
            false => Case::plain(list.clone()),
        };
        self.seen.note(Tapes, 1);
        let Ok(ran) = Ran::of(&case.tape(), list.n) else { return };
        self.seen.note(Accepted, 1);
        self.seen.note(Dropped, (!ran.exact).into());
        let told = |what: String| format!(" {family}: {what}\n{list}");
        let well = ran.readable && ran.kept;
        self.tallies[PLACES].count(well, || told("places of the operations".into()));
        if !ran.readable {
            return;
        }
        let questions = asked::questions(rng, &ran);
        let tape = gates::circuit(list.n, &list.gates).filter(|_| ran.exact);
        let circuit = blocks::circuit(list.n, &ran.ops);
        if !list.gates.iter().any(is_rounded) {
            self.tallies[BLOCKS].count(circuit.is_some(), || told("a map is no block".into()));
        }
        match circuit {
            Some(circuit) => {
                let values = Values::of(rng, &ran, &circuit, questions);
                self.seen.list(&list, &ran, &values);
                self.values(&ran, &values, &told);
                self.refusals(rng, &ran, &told);
                if let Some(tape) = tape {
                    self.seen.note(Beside, 1);
                    self.tape(&ran, &values, &|qubits| tape.product(qubits), &told);
                }
            }
            None => {
                self.seen.note(NoBlocks, 1);
                if let Some(tape) = tape {
                    self.nearly(&ran, &questions, &|qubits| tape.product(qubits), &told);
                }
            }
        }
    }

    /// The library beside the strings of its operations.
    fn values(&mut self, ran: &Ran, values: &Values, told: &dyn Fn(String) -> String) {
        for &(row, column, value) in &values.entries {
            let got = values.covariance[row * 2 * ran.slice.n + column];
            self.tallies[ENTRIES].count(got == value, || {
                told(format!("the entry ({row}, {column}) is {got}, by strings {value}"))
            });
        }
        for (kind, asked) in [(ZS, &values.zs), (PRODUCTS, &values.products)] {
            for Asked { query, value, .. } in asked {
                let (got, kept) = ran.product(query);
                self.tallies[kind].count(kept && got == Some(*value), || {
                    told(format!("{query} is {got:?}, by strings {value}"))
                });
            }
        }
    }

    /// The library beside the tape's own gates on qubits.
    fn tape(
        &mut self,
        ran: &Ran,
        values: &Values,
        tape: &dyn Fn(&[usize]) -> f64,
        told: &dyn Fn(String) -> String,
    ) {
        for (kind, asked) in TAPE.into_iter().zip([&values.zs, &values.products]) {
            for Asked { qubits, query, .. } in asked {
                let (got, value) = (ran.product(query).0, tape(qubits));
                self.tallies[kind].count(got == Some(value), || {
                    told(format!("{query} is {got:?}, by the tape's gates {value}"))
                });
            }
        }
    }

    /// Operations that are no blocks, because of rounding.
    fn nearly(
        &mut self,
        ran: &Ran,
        questions: &[Vec<usize>],
        tape: &dyn Fn(&[usize]) -> f64,
        told: &dyn Fn(String) -> String,
    ) {
        for qubits in questions {
            let query = Query::Product(qubits.clone());
            let (got, value) = (ran.product(&query).0, tape(qubits));
            let near = got.is_some_and(|x| (x - value).abs() <= CLOSE);
            self.tallies[NEARLY]
                .count(near, || told(format!("{query} is {got:?}, by the tape's gates {value}")));
        }
    }

    /// A product is refused where its own questions fail.
    fn refusals(&mut self, rng: &mut Rng, ran: &Ran, told: &dyn Fn(String) -> String) {
        let well = ran.refuses(rng);
        self.tallies[REFUSALS].count(well, || told("a refusal of a product".into()));
    }
}

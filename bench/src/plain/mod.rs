//! The engine, which postpones turns of the signs, beside the plain one, which turns all later rows and columns at once: random lists of operations from
//! the vacuum, and queries to both at the end. The plain engine is there twice, in Rattle and in the oracle.

mod draws;
mod seen;
mod sides;

use crate::asks;
use crate::compare::Tally;
use crate::layout::{kind, MAX_QUBITS};
use draws::Draws;
use oracle::bits::texts;
use oracle::compiled::answer::Places;
use oracle::plain::lists::{list, Numbers, FAMILIES};
use oracle::query::Query;
use oracle::rng::Rng;
use seen::Seen;
use sides::{too_many, Sides};

/// Modes of most lists at most, and of five, two and one in a thousand.
const SMALL: usize = 6;
const WIDE: [usize; 8] = [12, 12, 12, 12, 12, 60, 60, MAX_QUBITS];

/// What is compared after each operation, then what of queries; those whose answer has a row are compared among the others too.
const STEPS: [&str; 5] = ["numbers", "kept", "matrices", "covariances", "16"];
const SIXTEEN: usize = 4;
const QUERIES: [&str; 5] = ["products", "marginals", "indices", "samples", "rows"];
const ROWS: usize = 4;

fn kind(query: &Query) -> usize {
    match query {
        Query::Product(_) => 0,
        Query::Marginal(..) => 1,
        Query::Probability(_) => 2,
        Query::Sample(..) => 3,
    }
}

struct All {
    steps: [Tally; STEPS.len()],
    queries: [Tally; QUERIES.len()],
    draws: Draws,
}

/// Compares so many lists of each family.
pub fn compare(rng: &mut Rng, count: usize) -> bool {
    let (steps, queries) = (STEPS.map(Tally::new), QUERIES.map(Tally::new));
    let mut all = All { steps, queries, draws: Draws::new() };
    let flip = [kind::ONE, 0.0, 1.0, 0.0, 0.0, -1.0];
    let op: Places = std::array::from_fn(|k| flip.get(k).copied().unwrap_or(0.0));
    all.steps[SIXTEEN].count(too_many(&op), || format!(" {} modes", MAX_QUBITS + 1));
    let families = FAMILIES.map(|(name, numbers)| {
        let mut seen = Seen::default();
        (0..count).for_each(|_| all.list(rng, numbers, &mut seen));
        (name, seen)
    });
    let tallies = all.steps.into_iter().chain(all.queries);
    let well = Tally::end_all(tallies);
    well & all.draws.end() & seen::end(&families)
}

fn modes(rng: &mut Rng) -> usize {
    let wide = WIDE.get(rng.below(1000)).copied();
    wide.unwrap_or_else(|| rng.between(1, SMALL))
}

impl All {
    /// A list on all sides, operation by operation, then queries.
    fn list(&mut self, rng: &mut Rng, numbers: Numbers, seen: &mut Seen) {
        let n = modes(rng);
        let ops = list(rng, n, numbers);
        let mut sides = Sides::vacuum(rng, n);
        for (k, op) in ops.iter().enumerate() {
            let told = || {
                let ops = ops[..=k].iter().map(|op| format!("\n ({} )", texts(op)));
                format!(" {n} modes{}", ops.collect::<String>())
            };
            let checks = [&sides.step(op)[..], &[sides.refused(rng, op)]].concat();
            self.steps.iter_mut().zip(checks).for_each(|(tally, well)| tally.count(well, told));
        }
        self.ask(rng, &sides);
        self.draws.add(rng, &sides.engine);
        seen.add(n, &ops, sides.matrix());
    }

    /// The same queries to the engine's slice and to the plain matrix with signs that are all 1.0.
    fn ask(&mut self, rng: &mut Rng, sides: &Sides) {
        let plain = sides.plain_state();
        for query in asks::queries(rng, sides.engine.n) {
            let [(engine, kept), (plain, plain_kept)] =
                [&sides.engine, &plain].map(|s| s.ask(&query));
            let well = kept && plain_kept && asks::equal_but_zeros(&query, &engine, &plain);
            let told = || {
                let (places, modes) = (texts(&sides.engine.places), &sides.engine.modes);
                format!(
                    " {query}, modes {modes:?}, state{places}\n  engine{engine}\n  plain {plain}"
                )
            };
            self.queries[kind(&query)].count(well, told);
            if engine.row().is_some() {
                self.queries[ROWS].count(well, told);
            }
        }
    }
}

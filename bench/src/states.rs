//! Calls on arbitrary states: the port's slice and the original's struct, side by side.

use crate::asks;
use crate::compare::Tally;
use crate::layout::state_places;
use crate::pieces::calls::{mixed, operation, Kind, SIZES};
use crate::slice::{places, Slice};
use oracle::answer::answer_on;
use oracle::bits::texts;
use oracle::query::Query;
use oracle::rng::Rng;
use original::access::detect::GaussOp;
use original::access::state::access;

/// The largest state of a random comparison.
const SMALL: usize = 5;

/// The calls, in the order of `kind`; then the answers of products and marginals that have a row, which are compared among the others too.
const CALLS: [&str; 8] =
    ["z of one", "z of two", "z_product", "marginal", "index", "sample", "apply", "rows"];
const APPLY: usize = 6;
const ROWS: usize = 7;

fn kind(query: &Query) -> usize {
    match query {
        Query::Product(qs) => match qs.len() {
            1 => 0,
            2 => 1,
            _ => 2,
        },
        Query::Marginal(..) => 3,
        Query::Probability(_) => 4,
        Query::Sample(..) => 5,
    }
}

/// Compares the calls on random small states, and on a few of the sizes that are timed.
pub fn compare(rng: &mut Rng, count: usize) -> bool {
    let mut tallies = CALLS.map(Tally::new);
    for _ in 0..count {
        let n = rng.between(1, SMALL);
        let slice = any(rng, n);
        let op = any_operation(rng, n);
        one_of_each(rng, slice, &op, &mut tallies);
    }
    for n in SIZES {
        for kind in [Kind::One, Kind::Two, Kind::Odd] {
            let slice = Slice::of(n, &mixed(rng, n));
            let op = operation(rng, n, kind);
            one_of_each(rng, slice, &op, &mut tallies);
        }
    }
    Tally::end_all(tallies)
}

/// A state with any floats, not antisymmetric; of one in three few values, so that the Pfaffian stops in every row.
fn any(rng: &mut Rng, n: usize) -> Slice {
    let kind = rng.below(3);
    let float = |rng: &mut Rng| match kind {
        0 => rng.pick(&[0.0, 0.0, -0.0, -0.0, 1.0, -1.0, 0.5]),
        1 if rng.chance(1, 4) => crate::inputs::any(rng),
        _ => 2.0 * rng.unit() - 1.0,
    };
    let places = (0..state_places(n)).map(|_| float(rng)).collect();
    Slice { n, places, modes: rng.permutation(n).into_iter().map(|k| k as u16).collect() }
}

/// A map with any numbers.
fn any_operation(rng: &mut Rng, n: usize) -> GaussOp {
    let mut number =
        || if rng.chance(1, 8) { crate::inputs::any(rng) } else { 2.0 * rng.unit() - 1.0 };
    let q: [[f64; 4]; 4] = std::array::from_fn(|_| std::array::from_fn(|_| number()));
    if n == 1 || rng.chance(1, 2) {
        return GaussOp::One { mode: rng.below(n), q: [[q[0][0], q[0][1]], [q[1][0], q[1][1]]] };
    }
    GaussOp::Two { mode: rng.below(n - 1), q }
}

/// Queries of every kind on the state, then the operation.
fn one_of_each(rng: &mut Rng, mut slice: Slice, op: &GaussOp, tallies: &mut [Tally; CALLS.len()]) {
    let n = slice.n;
    let mut s = slice.original();
    for query in asks::queries(rng, n) {
        let (got, well) = slice.ask(&query);
        let want = answer_on(&s, n, &query);
        let well = well && asks::equal(&query, &want, &got);
        let told = || {
            let (places, modes) = (texts(&slice.places), &slice.modes);
            format!(" {query}, modes {modes:?}, state{places}\n  original{want}\n  port    {got}")
        };
        tallies[kind(&query)].count(well, told);
        if want.row().is_some() {
            tallies[ROWS].count(well, told);
        }
    }
    s.apply(op);
    let number = slice.apply(&places(op));
    let (want, got) = ([access::m(&s), access::d(&s), &[0.0]].concat(), &mut slice.places);
    got.push(number as f64);
    tallies[APPLY].add(&[], &want, got);
}

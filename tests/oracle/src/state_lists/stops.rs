//! Zeros that the Pfaffian's search finds, with their rows, beside zeros that are worked out and have none. Random states are tried until
//! every kind below is shown often enough, by products and by marginals.

use super::machine::Machine;
use super::{any_modes, any_slice, Floats};
use crate::layout::{covariance_places, query_places};
use crate::query::Query;
use crate::rng::Rng;
use crate::stops::{Found, Pfaffian};
use original::traced::state::access;

/// So many calls show each kind at least.
const EACH: usize = 3;
/// Random states that are tried, and their qubits at most.
const TRIED: usize = 100_000;
const MOST: usize = 5;
/// Random queries put to each.
const QUERIES: usize = 6;

/// What the Pfaffian of a call can show.
const SHOWN: [(&str, fn(&Pfaffian) -> bool); 15] = [
    ("row 0", |p| p.row == Some(0)),
    ("row 2", |p| p.row == Some(2)),
    ("row 4", |p| p.row == Some(4)),
    ("a later row", |p| p.row > Some(4)),
    ("after one swap", |p| p.row.is_some() && p.swaps == 1),
    ("after more swaps", |p| p.row.is_some() && p.swaps > 1),
    ("first candidate 0.0", |p| first(p).is_some_and(f64::is_sign_positive)),
    ("first candidate -0.0", |p| first(p).is_some_and(f64::is_sign_negative)),
    ("NaN after a zero", |p| p.candidates.iter().any(|x| x.is_nan())),
    ("after pivots below zero", |p| p.row.is_some() && p.product < 0.0),
    ("after pivots too large", |p| p.row.is_some() && p.product.is_infinite()),
    ("after pivots too small", |p| p.row.is_some() && p.product == 0.0),
    ("NaN first: no stop", |p| p.row.is_none() && p.nan_first),
    ("zero worked out", |p| p.row.is_none() && p.value == 0.0),
    ("no zero", |p| p.row.is_none() && p.value.abs() > 0.0),
];

/// What a product, then what a marginal can show besides.
const OF_PRODUCTS: [(&str, fn(&Found) -> bool); 2] = [
    ("-0.0 worked out", |found| found.number == 0.0 && found.number.is_sign_negative()),
    ("too large", |found| found.number.is_infinite()),
];
const OF_MARGINALS: [(&str, fn(&Found) -> bool); 4] = [
    ("contradiction", |found| found.pfaffian.is_none()),
    ("below zero", |found| value(found).abs() > 0.0 && found.number == 0.0),
    ("NaN", |found| value(found).is_nan()),
    ("above zero", |found| found.number > 0.0),
];

fn first(p: &Pfaffian) -> Option<f64> {
    p.candidates.first().copied()
}

/// The Pfaffian's value; zero where there is none or it stops.
fn value(found: &Found) -> f64 {
    found.pfaffian.as_ref().map_or(0.0, |p| p.value)
}

/// The kinds that a call shows.
fn kinds(query: &Query, found: &Found) -> Vec<String> {
    let (name, others) = match query {
        Query::Product(_) => ("product", &OF_PRODUCTS[..]),
        _ => ("marginal", &OF_MARGINALS[..]),
    };
    let all = SHOWN.iter().filter(|(_, shows)| found.pfaffian.as_ref().is_some_and(shows));
    let all = all.map(|row| row.0).chain(others.iter().filter(|row| row.1(found)).map(|row| row.0));
    all.map(|kind| format!("{name}: {kind}")).collect()
}

/// How many calls show each kind.
struct Counts(Vec<(String, usize)>);

impl Counts {
    fn new() -> Counts {
        let each = |name: &str, kind: &str| (format!("{name}: {kind}"), 0);
        let of_both =
            SHOWN.iter().flat_map(|row| ["product", "marginal"].map(|of| each(of, row.0)));
        let of_products = OF_PRODUCTS.iter().map(|row| each("product", row.0));
        let of_marginals = OF_MARGINALS.iter().map(|row| each("marginal", row.0));
        Counts(of_both.chain(of_products).chain(of_marginals).collect())
    }

    /// Counts what a call shows, if one of its kinds is still lacking.
    fn lacks(&mut self, shown: &[String]) -> bool {
        let lacks = self.0.iter().any(|(kind, count)| *count < EACH && shown.contains(kind));
        if lacks {
            self.0.iter_mut().filter(|row| shown.contains(&row.0)).for_each(|row| row.1 += 1);
        }
        lacks
    }

    fn end(&self) {
        let few: Vec<&(String, usize)> = self.0.iter().filter(|row| row.1 < EACH).collect();
        assert!(few.is_empty(), "too few calls show {few:?}");
    }
}

pub fn add(machine: &mut Machine) {
    let rng = &mut Rng::new(16);
    register(machine, rng);
    let mut counts = Counts::new();
    for _ in 0..TRIED {
        random(machine, rng, &mut counts);
    }
    counts.end();
    without(machine, rng);
}

/// Random calls that are put to the original with a note where `pfaffian` stops: how many, how many of them stop, and of how many the plain
/// search tells another row.
pub fn traced(rng: &mut Rng, count: usize) -> [usize; 3] {
    let mut counts = [count, 0, 0];
    for _ in 0..count {
        let n = rng.between(1, MOST);
        let (slice, modes) = (rng.pick(&FAMILIES)(rng, n), any_modes(rng, n));
        let query = query(rng, n);
        let row = Machine::on(n, slice.clone(), modes.clone()).search(&query).and_then(|f| f.row());
        counts[1] += usize::from(row.is_some());
        counts[2] += usize::from(row != noted(n, &slice, &modes, &query));
    }
    counts
}

/// The row that is noted.
fn noted(n: usize, slice: &[f64], modes: &[u16], query: &Query) -> Option<usize> {
    let (m, d) = slice.split_at(covariance_places(n));
    let modes = modes.iter().map(|&k| usize::from(k)).collect();
    let state = access::state(n, m.to_vec(), d.to_vec(), modes);
    access::stop_of(|| {
        let number = match query {
            Query::Product(qubits) => state.expectation_z_product(qubits),
            Query::Marginal(qubits, bits) => state.marginal_probability(qubits, bits),
            _ => unreachable!("a product or a marginal"),
        };
        assert!(number.is_ok(), "{query} of good qubits is refused");
    })
}

/// A random state with those of some queries that show what is lacking, if there are any.
fn random(machine: &mut Machine, rng: &mut Rng, counts: &mut Counts) {
    let n = rng.between(1, MOST);
    let (slice, modes) = (rng.pick(&FAMILIES)(rng, n), any_modes(rng, n));
    let state = Machine::on(n, slice.clone(), modes.clone());
    let queries: Vec<Query> = (0..QUERIES).map(|_| query(rng, n)).collect();
    let mut shows = |query: &&Query| {
        let found = state.search(query).expect("a product or a marginal");
        counts.lacks(&kinds(query, &found))
    };
    let queries: Vec<&Query> = queries.iter().filter(|query| shows(query)).collect();
    if !queries.is_empty() {
        machine.state(n, &slice, &modes);
        queries.into_iter().for_each(|query| put(machine, query, n));
    }
}

/// Qubits in any order, one in eight listed again; for a marginal with bits that seldom contradict each other.
fn query(rng: &mut Rng, n: usize) -> Query {
    let mut qubits = rng.permutation(n);
    qubits.truncate(rng.between(1, n));
    if rng.chance(1, 8) {
        qubits.push(rng.below(n));
    }
    if rng.chance(1, 2) {
        return Query::Product(qubits);
    }
    let word = rng.word();
    let bit = |&q: &usize| (word >> q & 1 == 1) ^ rng.chance(1, 16);
    let bits = qubits.iter().map(bit).collect();
    Query::Marginal(qubits, bits)
}

/// A query in work a place longer than it must be.
fn put(machine: &mut Machine, query: &Query, n: usize) {
    let work = query_places(n) + 1;
    match query {
        Query::Product(qubits) => machine.product(qubits, work),
        Query::Marginal(qubits, bits) => {
            let bits: Vec<u8> = bits.iter().map(|&bit| bit.into()).collect();
            machine.marginal(qubits, &bits, work);
        }
        _ => unreachable!("a product or a marginal"),
    }
}

/// How the states are made.
const FAMILIES: [fn(&mut Rng, usize) -> Vec<f64>; 5] = [
    |rng, n| any_slice(rng, n, Floats::Few, true),
    |rng, n| any_slice(rng, n, Floats::Special, true),
    matched,
    beside,
    of_low_rank,
];

/// Each operator is paired with one other, or with none; one entry may be NaN.
fn matched(rng: &mut Rng, n: usize) -> Vec<f64> {
    let pairs = rng.permutation(2 * n);
    let mut state = Antisymmetric::zeros(rng, n);
    for pair in pairs.chunks(2) {
        let few = [1.0, 1.0, -1.0, 0.5, -0.5, 0.0, 0.0, 1e-200, -1e-200, f64::MAX, f64::INFINITY];
        state.set(pair[0], pair[1], rng.pick(&few));
    }
    if rng.chance(1, 2) {
        state.set(rng.below(2 * n), rng.below(2 * n), f64::NAN);
    }
    state.slice(rng)
}

/// A state of bits, with some other entries beside them.
fn beside(rng: &mut Rng, n: usize) -> Vec<f64> {
    let mut state = Antisymmetric::zeros(rng, n);
    (0..n).for_each(|k| state.set(2 * k, 2 * k + 1, rng.pick(&[1.0, -1.0])));
    for _ in 0..rng.below(2 * n) {
        let x = rng.pick(&[1e-200, -1e-200, 0.5, 0.25, f64::NAN, f64::MAX, f64::INFINITY]);
        state.set(rng.below(2 * n), rng.below(2 * n), x);
    }
    state.slice(rng)
}

/// Sums of fewer than n products of two vectors of small whole numbers.
fn of_low_rank(rng: &mut Rng, n: usize) -> Vec<f64> {
    let mut state = Antisymmetric::zeros(rng, n);
    for _ in 0..rng.below(n) {
        let mut vector = || (0..2 * n).map(|_| rng.pick(&[0.0, 0.0, 1.0, -1.0])).collect();
        let (u, v): (Vec<f64>, Vec<f64>) = (vector(), vector());
        for r in 0..2 * n {
            (0..r).for_each(|c| state.set(r, c, state.m[r][c] + (u[r] * v[c] - v[r] * u[c])));
        }
    }
    state.slice(rng)
}

struct Antisymmetric {
    m: Vec<Vec<f64>>,
}

impl Antisymmetric {
    /// Zeros of either sign.
    fn zeros(rng: &mut Rng, n: usize) -> Antisymmetric {
        let mut row = || (0..2 * n).map(|_| rng.pick(&[0.0, -0.0])).collect();
        Antisymmetric { m: (0..2 * n).map(|_| row()).collect() }
    }

    fn set(&mut self, r: usize, c: usize, x: f64) {
        (self.m[r][c], self.m[c][r]) = (x, -x);
    }

    /// Its places, then signs.
    fn slice(self, rng: &mut Rng) -> Vec<f64> {
        let dim = self.m.len();
        let mut slice = self.m.concat();
        slice.extend((0..dim).map(|_| rng.pick(&[1.0, -1.0])));
        slice
    }
}

/// A state of bits: a marginal stops where the first mode has another bit than the one asked, in that pair's row; a product never stops.
fn register(machine: &mut Machine, rng: &mut Rng) {
    for n in [1, 2, 3, 3, 5] {
        let (bits, modes) = (rng.word(), any_modes(rng, n));
        let mut state = Antisymmetric::zeros(rng, n);
        for k in 0..n {
            state.set(2 * k, 2 * k + 1, if bits >> k & 1 == 1 { -1.0 } else { 1.0 });
        }
        let slice = [state.m.concat(), vec![1.0; 2 * n]].concat();
        assert_eq!(slice.len() - 2 * n, covariance_places(n));
        machine.state(n, &slice, &modes);
        put(machine, &Query::Product((0..n).collect()), n);
        for asked in (0..1u64 << n).take(8) {
            let other = asked ^ bits;
            let qubits: Vec<usize> = (0..n).collect();
            let asked = modes.iter().map(|k| asked >> k & 1 == 1).collect();
            let query = Query::Marginal(qubits, asked);
            let row = (0..n).find(|k| other >> k & 1 == 1).map(|k| 2 * k);
            assert_eq!(machine.search(&query).and_then(|found| found.row()), row);
            put(machine, &query, n);
        }
        machine.probability(!bits, 0, query_places(n));
    }
}

/// Calls without a row on a state of zeros, whose Pfaffians all stop in row 0: refusals, contradictions, empty lists, a basis index.
fn without(machine: &mut Machine, rng: &mut Rng) {
    let slice = Antisymmetric::zeros(rng, 2).slice(rng);
    machine.state(2, &slice, &[1, 0]);
    machine.product(&[0, 1], 16);
    machine.product(&[0, 1], 15);
    machine.product(&[0, 2], 16);
    machine.product(&[1, 1], 0);
    machine.product(&[], 0);
    machine.marginal(&[], &[], 0);
    // no marginal is zero where every Z is
    machine.marginal(&[0, 1], &[0, 1], 16);
    machine.state(2, &register_of_ones(), &[1, 0]);
    let calls: [(&[usize], &[u8], usize); 8] = [
        (&[0, 1], &[0, 0], 16),
        (&[0, 1], &[0, 0], 15),
        (&[0, 1], &[0, 2], 16),
        (&[0, 1], &[0], 16),
        (&[0, 2], &[0, 0], 16),
        (&[0, 1, 0], &[0, 0, 1], 16),
        (&[0, 1, 0, 9], &[0, 0, 1, 0], 0),
        (&[1, 0, 1], &[0, 0, 0], 16),
    ];
    for (qubits, bits, work) in calls {
        machine.marginal(qubits, bits, work);
    }
    machine.probability(0, 0, 16);
    machine.state(2, &register_of_ones(), &[1, 1]);
    machine.product(&[0], 4);
    machine.marginal(&[0], &[0], 4);
}

/// Two modes that read 1.
fn register_of_ones() -> Vec<f64> {
    let mut m = vec![vec![0.0; 4]; 4];
    for k in [0, 2] {
        (m[k][k + 1], m[k + 1][k]) = (-1.0, 1.0);
    }
    [m.concat(), vec![1.0; 4]].concat()
}

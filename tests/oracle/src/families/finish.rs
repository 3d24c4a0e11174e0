//! Headers and queries of random lists.

use super::maker::Maker;
use crate::layout::covariance_bytes;
use crate::list::List;
use crate::query::Query;
use crate::rng::Rng;

/// The original's tolerance.
pub const USUAL_TOL: f64 = 1e-10;

/// A limit that all registers meet.
pub const USUAL_LIMIT: u64 = 1 << 30;

/// Mostly small registers, some up to the widest that the state vector takes.
pub fn size(rng: &mut Rng, least: usize) -> usize {
    match rng.chance(1, 12) {
        true => rng.between(9, 12),
        false => rng.between(least, 8),
    }
}

/// A tolerance, mostly the usual one.
pub fn tol(rng: &mut Rng) -> f64 {
    match rng.chance(1, 4) {
        true => rng.pick(&[1e-12, 1e-11, 1e-8, 1e-6]),
        false => USUAL_TOL,
    }
}

/// A byte limit: mostly none that counts, else at the edge or one below it.
pub fn limit(rng: &mut Rng, n: usize) -> u64 {
    let edge = covariance_bytes(n);
    match rng.below(24) {
        0 => edge,
        1 => edge.saturating_sub(1),
        _ => USUAL_LIMIT,
    }
}

impl Maker<'_> {
    /// The list, with queries of every kind.
    pub fn finish(self, tol: f64, limit: u64) -> List {
        let (n, flags) = (self.n, self.flags);
        let queries = queries(self.rng, n);
        List { n, flags, tol, limit, gates: self.gates, queries }
    }
}

fn queries(rng: &mut Rng, n: usize) -> Vec<Query> {
    let mut out: Vec<Query> = (0..n).map(Query::z).collect();
    out.push(Query::Product(vec![rng.below(n), rng.below(n)]));
    out.push(Query::Product((0..n).collect()));
    out.push(Query::Product(listed(rng, n)));
    for _ in 0..2 {
        let qs = match rng.chance(1, 4) {
            true => listed(rng, n),
            false => rng.subset(n),
        };
        let bits = qs.iter().map(|_| rng.chance(1, 2)).collect();
        out.push(Query::Marginal(qs, bits));
    }
    out.push(Query::Probability(u128::from(rng.word())));
    let shots = rng.below(3);
    out.push(Query::Sample(shots, (0..shots * n).map(|_| rng.unit()).collect()));
    if rng.chance(1, 8) {
        out.push(refused(rng, n));
    }
    out
}

/// Some qubits in any order, some of them repeated.
fn listed(rng: &mut Rng, n: usize) -> Vec<usize> {
    (0..rng.below(2 * n + 1)).map(|_| rng.below(n)).collect()
}

/// A query that lists a qubit beyond the register, or a bit too few.
fn refused(rng: &mut Rng, n: usize) -> Query {
    let mut qs = rng.subset(n);
    match rng.below(4) {
        0 => return Query::z(n),
        1 => return Query::Product(vec![0, n + rng.below(3)]),
        2 => return Query::Marginal((0..n).collect(), vec![false; n - 1]),
        _ => qs.insert(rng.below(qs.len() + 1), n),
    }
    Query::Product(qs)
}

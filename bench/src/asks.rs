//! Random queries of every kind, and answers beside each other.

use crate::layout::index_of;
use oracle::answer::Answer;
use oracle::bits::same;
use oracle::query::Query;
use oracle::rng::Rng;

/// Largest difference between two answers to an angled list.
const CLOSE: f64 = 1e-9;

/// The largest float below 1.
const LARGEST: f64 = 1.0 - f64::EPSILON / 2.0;

/// Queries on n qubits: lists with qubits repeated, contradicting bits, indices with bits from n upward, draws at the ends.
pub fn queries(rng: &mut Rng, n: usize) -> Vec<Query> {
    let any = |rng: &mut Rng| if n == 0 { 0 } else { rng.below(n) };
    let mut out = vec![
        Query::z(any(rng)),
        Query::Product(vec![any(rng), any(rng)]),
        Query::Product((0..n).collect()),
        Query::Product(listed(rng, n)),
        Query::Probability(index_of(rng.word(), rng.word())),
    ];
    for _ in 0..3 {
        let qs = if rng.chance(1, 2) { rng.subset(n) } else { listed(rng, n) };
        let bits = bits(rng, &qs);
        out.push(Query::Marginal(qs, bits));
    }
    if rng.chance(1, 4) {
        let beyond = n + rng.below(3);
        out.push(refused(rng, n, beyond));
    }
    let shots = rng.between(0, 3);
    let draw = |rng: &mut Rng| match rng.chance(1, 8) {
        true => rng.pick(&[0.0, -0.0, 0.5, LARGEST]),
        false => rng.unit(),
    };
    out.push(Query::Sample(shots, (0..shots * n).map(|_| draw(rng)).collect()));
    out
}

/// Some qubits in any order, some of them repeated.
fn listed(rng: &mut Rng, n: usize) -> Vec<usize> {
    if n == 0 {
        return vec![];
    }
    (0..rng.below(2 * n.min(8) + 1)).map(|_| rng.below(n)).collect()
}

/// A bit for each listed qubit; in one of three lists repeated qubits may contradict each other.
fn bits(rng: &mut Rng, qs: &[usize]) -> Vec<bool> {
    let pattern = [rng.word(), rng.word()];
    let bit = |q: usize| pattern[q / 64 % 2] >> (q % 64) & 1 == 1;
    match rng.chance(1, 3) {
        true => qs.iter().map(|_| rng.chance(1, 2)).collect(),
        false => qs.iter().map(|&q| bit(q)).collect(),
    }
}

/// A qubit that is not there among the listed ones, in a marginal perhaps after a contradiction; or a bit too few.
fn refused(rng: &mut Rng, n: usize, beyond: usize) -> Query {
    let mut qs = listed(rng, n);
    match rng.below(6) {
        0 => return Query::z(beyond),
        1 => return Query::Product(vec![0, beyond]),
        2 => return Query::Product(vec![beyond, beyond]),
        3 if n > 0 => return Query::Marginal((0..n).collect(), vec![false; n - 1]),
        _ => qs.insert(rng.below(qs.len() + 1), beyond),
    }
    match rng.chance(1, 2) {
        true => Query::Product(qs),
        false => {
            let bits = qs.iter().map(|_| rng.chance(1, 2)).collect();
            Query::Marginal(qs, bits)
        }
    }
}

/// Whether the port gives what the original does, bit for bit, and the row that the plain search finds on its way; a zero probability is +0.0,
/// where the original may give -0.0.
pub fn equal(query: &Query, original: &Answer, port: &Answer) -> bool {
    let probability = matches!(query, Query::Marginal(..) | Query::Probability(_));
    match (original, port) {
        (Answer::Value(x, row), Answer::Value(y, told)) => {
            let zero = probability && *x == 0.0;
            row == told && same(if zero { 0.0 } else { *x }, *y)
        }
        (Answer::Shots(x), Answer::Shots(y)) => x == y,
        (Answer::Refused(a, b), Answer::Refused(c, d)) => (a, b) == (c, d),
        _ => false,
    }
}

/// Whether two answers of the port are the same in every bit, with one row; the zeros of a product are one.
pub fn equal_but_zeros(query: &Query, a: &Answer, b: &Answer) -> bool {
    match (query, a, b) {
        (Query::Product(_), Answer::Value(x, row), Answer::Value(y, told)) => {
            row == told && same(x + 0.0, y + 0.0)
        }
        (_, Answer::Value(x, row), Answer::Value(y, told)) => row == told && same(*x, *y),
        (_, Answer::Shots(x), Answer::Shots(y)) => x == y,
        (_, Answer::Refused(a, b), Answer::Refused(c, d)) => (a, b) == (c, d),
        _ => false,
    }
}

/// Whether two answers differ by at most `CLOSE`, whatever their rows.
pub fn close(original: &Answer, port: &Answer) -> bool {
    match (original, port) {
        (Answer::Value(x, _), Answer::Value(y, _)) => (x - y).abs() <= CLOSE,
        (Answer::Shots(x), Answer::Shots(y)) => x == y,
        (Answer::Refused(a, b), Answer::Refused(c, d)) => (a, b) == (c, d),
        _ => false,
    }
}

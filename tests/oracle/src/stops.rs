//! The row where the original's Pfaffian stops, which the original does not tell: its search for pivots written out again, on the matrix
//! of a product or a marginal, whose entries the original gives. Of every answer it is asserted that the number found here is the
//! original's (`answer`), so that a row is told of the way on which the original came to its zero.

use crate::bits::same;
use crate::query::Query;

/// By rows.
type Matrix = Vec<Vec<f64>>;

/// The number of a product or a marginal, and the Pfaffian that it comes from; a marginal whose bits contradict each other has none.
pub struct Found {
    pub number: f64,
    pub pfaffian: Option<Pfaffian>,
}

/// A Pfaffian, and what its search met.
#[derive(Default)]
pub struct Pfaffian {
    pub value: f64,
    /// The row where the search ended at zero, and the candidates there; the value is then zero.
    pub row: Option<usize>,
    pub candidates: Vec<f64>,
    /// The product of the pivots before that row.
    pub product: f64,
    pub swaps: usize,
    /// The first candidate of some row is no number: the search goes on with it.
    pub nan_first: bool,
}

impl Found {
    pub fn row(&self) -> Option<usize> {
        self.pfaffian.as_ref().and_then(|pfaffian| pfaffian.row)
    }

    /// Whether the original's number is this one, in every bit; the sign of a marginal's zero is left open.
    pub fn is_of(&self, number: f64, query: &Query) -> bool {
        let zeros = matches!(query, Query::Marginal(..)) && self.number == 0.0 && number == 0.0;
        zeros || same(self.number, number)
    }
}

/// What a product or a marginal of good qubits finds; nothing for other queries. `entries` is the covariance by rows, `modes` has the mode
/// of each qubit.
pub fn search(entries: &[f64], modes: &[usize], query: &Query) -> Option<Found> {
    match query {
        Query::Product(qubits) => {
            let count = |q: usize| qubits.iter().filter(|&&x| x == q).count();
            let odd = (0..modes.len()).filter(|&q| count(q) % 2 == 1);
            let pfaffian = pfaffian(matrix(entries, modes, &sorted(odd.map(|q| modes[q]))));
            Some(Found { number: pfaffian.value, pfaffian: Some(pfaffian) })
        }
        Query::Marginal(qubits, bits) => {
            let mut asked: Vec<(usize, bool)> = vec![];
            for (&q, &bit) in qubits.iter().zip(bits) {
                // the qubits after a contradiction may be none
                if asked.contains(&(modes[q], !bit)) {
                    return Some(Found { number: 0.0, pfaffian: None });
                }
                asked.push((modes[q], bit));
            }
            Some(marginal(entries, modes, &sorted(asked.into_iter())))
        }
        Query::Probability(_) | Query::Sample(..) => None,
    }
}

/// In increasing order, each once.
fn sorted<T: Ord>(all: impl Iterator<Item = T>) -> Vec<T> {
    let mut all: Vec<T> = all.collect();
    all.sort_unstable();
    all.dedup();
    all
}

/// The covariance of the two operators of each of these modes.
fn matrix(entries: &[f64], modes: &[usize], of: &[usize]) -> Matrix {
    let dim = 2 * modes.len();
    let rows: Vec<usize> = of.iter().flat_map(|&k| [2 * k, 2 * k + 1]).collect();
    rows.iter().map(|&r| rows.iter().map(|&c| entries[r * dim + c]).collect()).collect()
}

/// The probability that modes read their bits, none of which contradict each other.
fn marginal(entries: &[f64], modes: &[usize], asked: &[(usize, bool)]) -> Found {
    let listed: Vec<usize> = asked.iter().map(|x| x.0).collect();
    let mut a = matrix(entries, modes, &listed);
    a.iter_mut().flatten().for_each(|x| *x = 0.5 * *x);
    for (j, &(_, bit)) in asked.iter().enumerate() {
        let half = if bit { -0.5 } else { 0.5 };
        a[2 * j][2 * j + 1] += half;
        a[2 * j + 1][2 * j] -= half;
    }
    let pfaffian = pfaffian(a);
    let ones = asked.iter().filter(|x| x.1).count();
    let sign = if ones % 2 == 1 { -1.0 } else { 1.0 };
    let signed = sign * pfaffian.value;
    let number = if signed > 0.0 { signed } else { 0.0 };
    Found { number, pfaffian: Some(pfaffian) }
}

/// The Pfaffian of a matrix with an even number of rows: in each pair of rows the largest candidate of the upper one is brought to its
/// front, then the pair is taken from the rows below.
fn pfaffian(mut a: Matrix) -> Pfaffian {
    let mut met = Pfaffian { product: 1.0, ..Pfaffian::default() };
    for k in (0..a.len()).step_by(2) {
        let largest = first_largest(&a[k], k + 1);
        if a[k][largest] == 0.0 {
            return Pfaffian { row: Some(k), candidates: a[k][k + 1..].to_vec(), ..met };
        }
        met.nan_first |= a[k][k + 1].is_nan();
        if largest != k + 1 {
            a.swap(largest, k + 1);
            a.iter_mut().for_each(|row| row.swap(largest, k + 1));
            met.product = -met.product;
            met.swaps += 1;
        }
        met.product *= a[k][k + 1];
        eliminate(&mut a, k);
    }
    Pfaffian { value: met.product, ..met }
}

/// Where the largest magnitude is from a place on, of equal ones the first. What is no number is not above any, and none is above it.
fn first_largest(row: &[f64], from: usize) -> usize {
    (from..row.len()).fold(from, |best, j| if row[j].abs() > row[best].abs() { j } else { best })
}

fn eliminate(a: &mut Matrix, k: usize) {
    let (upper, lower) = (a[k].clone(), a[k + 1].clone());
    let share = |i: usize| upper[i] / upper[k + 1];
    for (i, row) in a.iter_mut().enumerate().skip(k + 2) {
        for (j, x) in row.iter_mut().enumerate().skip(k + 2) {
            *x += -share(i) * lower[j] + share(j) * lower[i];
        }
    }
}

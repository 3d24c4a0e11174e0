//! What is asked of a run, with the values of the strings of its operations.

use crate::ran::{product, Ran};
use crate::slice::Slice;
use oracle::plain::covariance;
use oracle::query::Query;
use oracle::rng::Rng;
use oracle::strings::Circuit;

/// Qubits at most of which every entry is compared; of more, so many whole rows.
const ALL: usize = 12;
const ROWS: usize = 16;
/// Qubits of a list at most, but for those with all of them.
const LISTED: usize = 8;
/// Products that are not zero by the strings.
const CERTAIN: usize = 3;

pub struct Asked {
    pub qubits: Vec<usize>,
    pub query: Query,
    pub value: f64,
}

pub struct Values {
    /// Row, column, value.
    pub entries: Vec<(usize, usize, f64)>,
    pub zs: Vec<Asked>,
    pub products: Vec<Asked>,
    /// The run's own, by rows: m times the sign of the row, then that of the column.
    pub covariance: Vec<f64>,
}

/// Lists of qubits: each alone, then pairs, lists with qubits repeated, some and all.
pub fn questions(rng: &mut Rng, ran: &Ran) -> Vec<Vec<usize>> {
    let n = ran.slice.n;
    let mut out: Vec<Vec<usize>> = (0..n).map(|q| vec![q]).collect();
    let (a, b) = (rng.below(n), rng.below(n));
    out.extend([vec![a, (a + 1) % n], vec![b, a], vec![a, b, a], rng.subset(n), (0..n).collect()]);
    for _ in 0..3 {
        out.push((0..rng.below(2 * n.min(LISTED) + 1)).map(|_| rng.below(n)).collect());
    }
    out
}

/// Random lists of qubits whose product is not zero by the strings.
fn certain(rng: &mut Rng, ran: &Ran, circuit: &Circuit) -> Vec<Vec<usize>> {
    let basis = circuit.certain();
    let mut sum = || basis.iter().filter(|_| rng.chance(1, 2)).fold(0, |sum, list| sum ^ list);
    let sums: [u128; CERTAIN] = std::array::from_fn(|_| sum());
    let qubits = |sum: u128| (0..ran.slice.n).filter(|&q| sum >> ran.modes[q] & 1 == 1).collect();
    sums.map(qubits).to_vec()
}

impl Values {
    /// The modes of listed qubits are those of the run's mode table.
    pub fn of(
        rng: &mut Rng,
        ran: &Ran,
        circuit: &Circuit,
        mut questions: Vec<Vec<usize>>,
    ) -> Values {
        let n = ran.slice.n;
        questions.extend(certain(rng, ran, circuit));
        let rows: Vec<usize> = match n <= ALL {
            true => (0..2 * n).collect(),
            false => (0..ROWS).map(|_| rng.below(2 * n)).collect(),
        };
        let places = rows.iter().flat_map(|&row| (0..2 * n).map(move |column| (row, column)));
        let entries = places.map(|(row, column)| (row, column, circuit.entry(row, column)));
        let mut zs: Vec<Asked> = questions
            .into_iter()
            .map(|qubits| {
                let modes: Vec<usize> = qubits.iter().map(|&q| ran.modes[q]).collect();
                let (query, value) = (Query::Product(qubits.clone()), circuit.product(&modes));
                Asked { qubits, query, value }
            })
            .collect();
        let products = zs.split_off(n);
        let covariance = covariance(n, &ran.slice.places);
        Values { entries: entries.collect(), zs, products, covariance }
    }

    /// Whether another covariance, in the place of the run's, has another entry, another single Z, another product.
    pub fn told(&self, ran: &Ran, covariance: &[f64]) -> [bool; 3] {
        let dim = 2 * ran.slice.n;
        let slice = ran.with(covariance);
        let other = |asked: &[Asked]| asked.iter().any(|one| is_other(&slice, one));
        let entries = self.entries.iter().any(|&(r, c, value)| covariance[r * dim + c] != value);
        [entries, other(&self.zs), other(&self.products)]
    }

    /// How many entries, single Zs and products there are, and how many of each are not zero.
    pub fn counts(&self) -> [[usize; 2]; 3] {
        let of = |asked: &[Asked]| {
            [asked.len(), asked.iter().filter(|asked| asked.value != 0.0).count()]
        };
        let entries = self.entries.iter().filter(|entry| entry.2 != 0.0).count();
        [[self.entries.len(), entries], of(&self.zs), of(&self.products)]
    }
}

fn is_other(slice: &Slice, asked: &Asked) -> bool {
    product(slice, &asked.query).0 != Some(asked.value)
}

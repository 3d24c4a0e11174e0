//! All short lists: up to three gates on up to three qubits, with every flag.

use oracle::list::List;
use oracle::query::Query;
use original::gate::Gate;

const MOST_QUBITS: usize = 3;
const MOST_GATES: u32 = 3;
const FLAGS: u8 = 8;

/// The usual tolerance, and a limit that all of them meet.
const TOL: f64 = 1e-10;
const LIMIT: u64 = 1 << 30;

/// Calls `each` with every list.
pub fn lists(mut each: impl FnMut(List)) {
    for n in 0..=MOST_QUBITS {
        let (gates, queries) = (gates(n), queries(n));
        for length in 0..=MOST_GATES {
            for code in 0..gates.len().pow(length) {
                let picked: Vec<Gate> =
                    digits(code, gates.len(), length).map(|k| gates[k]).collect();
                for flags in 0..FLAGS {
                    let (gates, queries) = (picked.clone(), queries.clone());
                    each(List { n, flags, tol: TOL, limit: LIMIT, gates, queries });
                }
            }
        }
    }
}

/// The digits of a number, so many of them, the lowest first.
fn digits(code: usize, base: usize, length: u32) -> impl Iterator<Item = usize> {
    (0..length).map(move |k| code / base.pow(k) % base)
}

/// X, S, H, Cnot, Cz, Swap and ISwap on every qubit and every pair in either order.
fn gates(n: usize) -> Vec<Gate> {
    let one = (0..n).flat_map(|q| [Gate::X(q), Gate::S(q), Gate::H(q)]);
    let pairs = (0..n).flat_map(|a| (0..n).filter(move |&b| a != b).map(move |b| (a, b)));
    let two = pairs
        .flat_map(|(a, b)| [Gate::Cnot(a, b), Gate::Cz(a, b), Gate::Swap(a, b), Gate::ISwap(a, b)]);
    one.chain(two).collect()
}

/// Every Z, every product of two, the product of all, some with qubits repeated; every basis index, with bits from n upward
/// beside it; marginals of one and of two qubits, one that contradicts itself; shots.
fn queries(n: usize) -> Vec<Query> {
    let mut out: Vec<Query> = (0..n).map(Query::z).collect();
    out.extend((0..n).flat_map(|j| (0..=j).map(move |i| Query::Product(vec![i, j]))));
    let all: Vec<usize> = (0..n).collect();
    out.push(Query::Product([&all[..], &all[n.min(1)..]].concat()));
    out.push(Query::Product(all));
    out.extend((0..1u128 << n).map(|x| Query::Probability(x | x << n | u128::MAX << 100)));
    for q in 0..n {
        out.push(Query::Marginal(vec![q], vec![true]));
        out.push(Query::Marginal(vec![n - 1, q, q], vec![false, true, q > 0]));
    }
    out.push(Query::Sample(2, [0.3, 0.8, 0.6, 0.6, 0.1, 0.9][..2 * n].to_vec()));
    out
}

//! What is asked of a list on n qubits.

use crate::rng::Rng;

/// Random products and marginals of each list.
const RANDOM: usize = 6;

/// Every qubit alone, none, all, then lists with repeats.
pub fn products(rng: &mut Rng, n: usize) -> Vec<Vec<usize>> {
    let mut out: Vec<Vec<usize>> = (0..n).map(|q| vec![q]).collect();
    out.extend([vec![], (0..n).collect()]);
    out.extend((0..RANDOM).map(|_| listed(rng, n)));
    out
}

/// Qubits with bits; of half of the lists a qubit that is repeated has one bit.
pub fn marginals(rng: &mut Rng, n: usize) -> Vec<Vec<(usize, bool)>> {
    let one = |_| {
        let (qubits, fixed, careful) = (listed(rng, n), rng.word(), rng.chance(1, 2));
        let mut bit = |q: usize| if careful { fixed >> q & 1 == 1 } else { rng.chance(1, 2) };
        qubits.into_iter().map(|q| (q, bit(q))).collect()
    };
    (0..RANDOM).map(one).collect()
}

fn listed(rng: &mut Rng, n: usize) -> Vec<usize> {
    (0..rng.below(2 * n + 1)).map(|_| rng.below(n)).collect()
}

/// Whether something is listed twice.
pub fn repeats<T: PartialEq>(list: &[T]) -> bool {
    list.iter().enumerate().any(|(k, one)| list[..k].contains(one))
}

/// Whether a qubit is listed with both bits.
pub fn contradicts(listed: &[(usize, bool)]) -> bool {
    listed.iter().any(|&(q, bit)| listed.contains(&(q, !bit)))
}

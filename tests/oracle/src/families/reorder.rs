//! Matchgates along hidden paths, so that the wires must be reordered; some
//! lists have an edge too many and get a greedy cover.

use super::finish::{limit, size, tol};
use super::maker::Maker;
use super::matchgate::some_tails;
use super::pieces::{matchgate, phase_or_flip};
use crate::list::{List, REORDER};
use crate::rng::Rng;

pub fn make(rng: &mut Rng) -> List {
    let n = size(rng, 2);
    let mut flags = rng.below(8) as u8;
    if rng.chance(3, 4) {
        flags |= REORDER;
    }
    let blocks = rng.between(1, 3 * n);
    on(rng, n, flags, blocks)
}

/// The list of so many qubits and blocks.
pub fn on(rng: &mut Rng, n: usize, flags: u8, blocks: usize) -> List {
    let joined = edges(rng, n);
    let mut maker = Maker::new(rng, n, flags);
    for _ in 0..blocks {
        some_tails(&mut maker, phase_or_flip);
        if let Some((a, b)) = maker.fresh_pair(|v, w| joined[v][w]) {
            let swaps = maker.relabels();
            let piece = matchgate(maker.rng, a, b, swaps);
            maker.block(a, b, piece);
        }
    }
    let (tol, limit) = (tol(maker.rng), limit(maker.rng, n));
    maker.finish(tol, limit)
}

/// Which wires may be joined: those that follow each other in a hidden order
/// with a few gaps, and in some lists one or two pairs more.
fn edges(rng: &mut Rng, n: usize) -> Vec<Vec<bool>> {
    let hidden = hidden_order(rng, n);
    let mut joined = vec![vec![false; n]; n];
    let mut join = |v: usize, w: usize| {
        joined[v][w] = v != w;
        joined[w][v] = v != w;
    };
    for pair in hidden.windows(2) {
        if rng.chance(7, 8) {
            join(pair[0], pair[1]);
        }
    }
    if rng.chance(1, 4) {
        for _ in 0..rng.between(1, 2) {
            join(rng.below(n), rng.below(n));
        }
    }
    joined
}

/// A random order, or the given one with two wires exchanged.
fn hidden_order(rng: &mut Rng, n: usize) -> Vec<usize> {
    if rng.chance(3, 4) {
        return rng.permutation(n);
    }
    let mut order: Vec<usize> = (0..n).collect();
    order.swap(rng.below(n), rng.below(n));
    order
}

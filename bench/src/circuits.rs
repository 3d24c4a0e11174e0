//! Circuits that are timed and counted.

use oracle::families::pieces::xx;
use oracle::list::{List, RELABEL, REORDER};
use oracle::rng::Rng;
use original::gate::Gate;

/// Blocks with two tails.
pub const TAILED: usize = 28;

/// A limit that all of them meet.
const LIMIT: u64 = 1 << 30;

fn of(n: usize, gates: Vec<Gate>) -> List {
    List { n, flags: RELABEL | REORDER, tol: 1e-10, limit: LIMIT, gates, queries: vec![] }
}

/// Layers of matchgates on neighbours, in turn on even and on odd pairs.
pub fn brick_wall(n: usize, gates: usize) -> List {
    let pairs = |layer: usize| (layer % 2..n - 1).step_by(2);
    let wall = (0..).flat_map(pairs).map(|a| Gate::ISwap(a, a + 1));
    of(n, wall.take(gates).collect())
}

/// Matchgates on random neighbours.
pub fn random_neighbours(rng: &mut Rng, n: usize, gates: usize) -> List {
    let pair = |a: usize| Gate::ISwap(a, a + 1);
    of(n, (0..gates).map(|_| pair(rng.below(n - 1))).collect())
}

/// Blocks of many cuts, whose two tails have so many gates. A tail of 17 or more has 18 cuts, a shorter one has one more than gates.
pub fn many_cuts(rng: &mut Rng, n: usize, tails: [usize; 2]) -> List {
    let mut gates = Vec::new();
    for k in 0..TAILED {
        let (a, b) = (2 * k, 2 * k + 1);
        gates.extend([Gate::H(a), Gate::ISwap(a, b)]);
        for (q, tail) in [a, b].into_iter().zip(tails) {
            gates.extend((0..tail).map(|_| rng.pick(&[Gate::H(q), Gate::Sx(q), Gate::X(q)])));
        }
    }
    of(n, gates)
}

/// Matchgates on random pairs.
pub fn random_pairs(rng: &mut Rng, n: usize, gates: usize) -> List {
    let mut pair = || {
        let order = rng.permutation(n);
        Gate::ISwap(order[0], order[1])
    };
    of(n, (0..gates).map(|_| pair()).collect())
}

/// Rotations by XX on random neighbours, each with a phase after it.
pub fn rotations(rng: &mut Rng, n: usize, gates: usize) -> List {
    let mut out = Vec::new();
    while out.len() < gates {
        let a = rng.below(n - 1);
        out.extend(xx(a, a + 1, rng.angle()));
        out.push(Gate::Rz(a, rng.angle()));
    }
    out.truncate(gates);
    of(n, out)
}

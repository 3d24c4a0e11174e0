//! Lists of operations beside the original's `apply`: by the engine, which postpones turns of the signs, and by the plain one.

use super::calls::{mixed, operation, Kind, SIZES};
use super::{Each, Piece};
use crate::port::plain_apply;
use crate::slice::{places, Slice};
use oracle::compiled::answer::Places;
use oracle::plain::covariance;
use oracle::rng::Rng;
use original::access::detect::access as detect;
use original::access::detect::GaussOp;
use original::access::state::GaussianState;
use original::gate::Gate;

/// Operations of a list.
const OPS: usize = 200;
/// One of so many is a flip.
const FLIPS: usize = 5;

/// The lists of each size, each by the engine and then by the plain one.
pub fn pieces(rng: &mut Rng, each: Each) {
    for n in SIZES {
        let state = mixed(rng, n);
        let GaussOp::Two { q, .. } = operation(rng, n, Kind::Odd) else {
            unreachable!("an odd map")
        };
        let lists = [
            (format!("{OPS} operations, n = {n}"), device(rng, n)),
            (format!("odd on mode 0, n = {n}"), vec![GaussOp::Two { mode: 0, q }]),
        ];
        for (name, ops) in lists {
            let mut slice = Slice::of(n, &state);
            one(&format!("apply {name}"), &state, &ops, &mut |op| slice.apply(op), each);
            let mut matrix = covariance(n, &Slice::of(n, &state).places);
            let plain = &mut |op: &Places| plain_apply(n, &mut matrix, op);
            one(&format!("plain {name}"), &state, &ops, plain, each);
        }
    }
}

/// As on a device: blocks of matchgates on neighbours, layer by layer, and flips between them.
fn device(rng: &mut Rng, n: usize) -> Vec<GaussOp> {
    let mut pairs = (0..).flat_map(|layer| (layer % 2..n - 1).step_by(2));
    let flip = detect::majorana_map1(&Gate::X(0).matrix_1q().expect("a one-qubit gate")).0;
    let mut next = |k: usize| match operation(rng, n, Kind::Two) {
        GaussOp::Two { q, .. } if k % FLIPS > 0 => {
            GaussOp::Two { mode: pairs.next().expect("another layer"), q }
        }
        _ => GaussOp::One { mode: rng.below(n), q: flip },
    };
    (0..OPS).map(&mut next).collect()
}

/// One list on a state of each side's own.
fn one(
    name: &str,
    state: &GaussianState,
    ops: &[GaussOp],
    port: &mut dyn FnMut(&Places) -> u64,
    each: Each,
) {
    let flat: Vec<Places> = ops.iter().map(places).collect();
    let mut s = state.clone();
    each(Piece {
        name,
        calls: 1,
        original: &mut || ops.iter().for_each(|op| s.apply(op)),
        port: &mut || flat.iter().for_each(|op| assert_eq!(port(op), 0)),
    });
}

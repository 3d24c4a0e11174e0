//! Register tapes: flips, phases, swaps and iswaps only. All arithmetic is
//! exact, so any tolerance will do.

use super::finish::{limit, size};
use super::maker::{neighbours, Maker};
use crate::list::List;
use crate::rng::Rng;
use original::gate::Gate;

const TOLERANCES: [f64; 6] = [0.0, -0.0, 5e-324, 1e-12, 1e-10, 0.001];

pub fn make(rng: &mut Rng) -> List {
    let n = size(rng, 1);
    let flags = rng.below(8) as u8;
    let anywhere = rng.chance(1, 4);
    let gates = rng.between(0, 6 * n);
    let mut maker = Maker::new(rng, n, flags);
    for _ in 0..gates {
        match maker.pair(|v, w| anywhere || neighbours(v, w)) {
            Some((a, b)) if maker.rng.chance(1, 2) => two(&mut maker, a, b),
            _ => one(&mut maker),
        }
    }
    let tol = maker.rng.pick(&TOLERANCES);
    let limit = limit(maker.rng, n);
    maker.finish(tol, limit)
}

fn one(maker: &mut Maker) {
    let q = maker.qubit();
    let gates = [Gate::I(q), Gate::X(q), Gate::Y(q), Gate::Z(q), Gate::S(q), Gate::Sdg(q)];
    let gate = maker.rng.pick(&gates);
    maker.tail(&[gate]);
}

/// Without relabelling a swap is mostly refused, so there are few.
fn two(maker: &mut Maker, a: usize, b: usize) {
    let swap = maker.rng.chance(1, if maker.relabels() { 3 } else { 40 });
    if swap {
        maker.swap(a, b);
    } else {
        let gate = maker.rng.pick(&[Gate::ISwap(a, b), Gate::ISwapdg(a, b)]);
        maker.block(a, b, super::pieces::Piece::still(vec![gate]));
    }
}

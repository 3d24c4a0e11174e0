//! Any gates at all, three-qubit ones among them: mostly refused, so these
//! lists are about the report.

use super::finish::{limit, size, tol};
use super::maker::Maker;
use crate::list::List;
use crate::rng::Rng;
use original::gate::Gate;

pub fn make(rng: &mut Rng) -> List {
    let n = size(rng, 3);
    let flags = rng.below(8) as u8;
    let gates = rng.between(1, 8 * n);
    let mut maker = Maker::new(rng, n, flags);
    for _ in 0..gates {
        let gate = any_gate(maker.rng, n);
        maker.tail(&[gate]);
    }
    let (tol, limit) = (tol(maker.rng), limit(maker.rng, n));
    maker.finish(tol, limit)
}

fn any_gate(rng: &mut Rng, n: usize) -> Gate {
    let order = rng.permutation(n);
    let (a, b, c) = (order[0], order[1], order[2]);
    match rng.below(9) {
        0 => Gate::Ccx(a, b, c),
        1..=3 => any_two(rng, a, b),
        _ => any_one(rng, a),
    }
}

fn any_two(rng: &mut Rng, a: usize, b: usize) -> Gate {
    match rng.below(6) {
        0 => Gate::Cnot(a, b),
        1 => Gate::Cz(a, b),
        2 => Gate::Swap(a, b),
        3 => Gate::ISwap(a, b),
        4 => Gate::ISwapdg(a, b),
        _ => Gate::CPhase(a, b, rng.angle()),
    }
}

fn any_one(rng: &mut Rng, q: usize) -> Gate {
    match rng.below(16) {
        0 => Gate::I(q),
        1 => Gate::H(q),
        2 => Gate::X(q),
        3 => Gate::Y(q),
        4 => Gate::Z(q),
        5 => Gate::S(q),
        6 => Gate::Sdg(q),
        7 => Gate::T(q),
        8 => Gate::Tdg(q),
        9 => Gate::Sx(q),
        10 => Gate::Sxdg(q),
        11 => Gate::Rx(q, rng.angle()),
        12 => Gate::Ry(q, rng.angle()),
        13 => Gate::Rz(q, rng.angle()),
        14 => Gate::Phase(q, rng.angle()),
        _ => Gate::U(q, rng.angle(), rng.angle(), rng.angle()),
    }
}

//! Random lists of gates that take Pauli strings to Pauli strings, most of which the engine accepts.

use crate::families::maker::{neighbours, Maker};
use crate::families::pieces::{matrix, quarter, Piece};
use crate::families::Family;
use crate::layout::covariance_bytes;
use crate::list::{List, DROP, RELABEL, REORDER};
use crate::rng::Rng;
use crate::tape::{NAMED1, NAMED2};
use original::access::detect::access::majorana_map2;
use original::gate::Gate;
use std::f64::consts::{FRAC_PI_2, PI};

/// Names of families, and how each makes a list. `wide` is beside them: few lists of it suffice.
pub const FAMILIES: [(&str, Family); 6] = [
    ("clifford", clifford),
    ("rotations", rotations),
    ("wires", wires),
    ("swaps", swaps),
    ("tails", tails),
    ("dropped", dropped),
];

const TOL: f64 = 1e-10;
/// Qubits of `clifford`, and of the others, at least and at most.
const FEW: usize = 6;
const SIZES: [usize; 2] = [3, 12];
/// Qubits of wide lists, and their blocks at most: a block with its flips has up to six gates.
const WIDE: [usize; 3] = [60, 100, 128];
const BLOCKS: usize = 160;

/// Gates of every name: any on any qubits, mostly few, since of many the engine accepts hardly a list; or words on two neighbours that happen to be
/// matchgates.
fn clifford(rng: &mut Rng) -> List {
    let n = rng.between(1, FEW);
    let flags = rng.below(8) as u8;
    if n > 1 && rng.chance(2, 3) {
        let words = rng.between(1, 2 * n);
        let gates = (0..words).flat_map(|_| {
            let a = rng.below(n - 1);
            word(rng).into_iter().map(move |g| moved(g, a))
        });
        return list(n, flags & !RELABEL, gates.collect());
    }
    let count = if rng.chance(1, 8) { rng.between(8, 24) } else { rng.between(1, 8) };
    let gates = (0..count).map(|_| any_gate(rng, n)).collect();
    list(n, flags, gates)
}

/// Any gate on n qubits; of one qubit also a quarter turn by its angle.
fn any_gate(rng: &mut Rng, n: usize) -> Gate {
    let q = rng.below(n);
    if n > 1 && rng.chance(1, 2) {
        return on(rng.pick(&NAMED2).1, q, (q + rng.between(1, n - 1)) % n);
    }
    let quarters = f64::from(rng.between(0, 3) as u8) * FRAC_PI_2;
    match rng.below(40) {
        0 => Gate::Rz(q, quarters),
        1 => Gate::Phase(q, quarters),
        2 => Gate::Rx(q, quarters),
        3 => Gate::Ry(q, quarters),
        _ => on(rng.pick(&NAMED1).1, q, q),
    }
}

/// A word of gates on two qubits that is a matchgate; every second mixes the operators of the two modes, so that it joins them. Most have no gate whose
/// numbers are rounded.
fn word(rng: &mut Rng) -> Vec<Gate> {
    let (joins, exact) = (rng.chance(1, 2), rng.chance(15, 16));
    loop {
        let gates: Vec<Gate> = (0..rng.between(1, 6)).map(|_| any_gate(rng, 2)).collect();
        if exact && gates.iter().any(is_rounded) {
            continue;
        }
        let (map, residual) = majorana_map2(&matrix(&gates));
        let crosses = |row: &[f64; 4]| row[2..].iter().any(|x| x.abs() > 0.5);
        if residual < TOL && (!joins || crosses(&map[0]) != crosses(&map[1])) {
            return gates;
        }
    }
}

/// Whether numbers of a gate's matrix are rounded.
pub fn is_rounded(gate: &Gate) -> bool {
    matches!(gate, Gate::H(_) | Gate::Rx(..) | Gate::Ry(..) | Gate::Rz(..) | Gate::Phase(..))
}

/// A gate on qubits 0 and 1, so many further.
fn moved(gate: Gate, by: usize) -> Gate {
    let at = |k: usize| gate.qubits().get(k).map_or(by, |q| q + by);
    match gate {
        Gate::Rz(_, t) => Gate::Rz(at(0), t),
        Gate::Phase(_, t) => Gate::Phase(at(0), t),
        Gate::Rx(_, t) => Gate::Rx(at(0), t),
        Gate::Ry(_, t) => Gate::Ry(at(0), t),
        _ => on(gate, at(0), at(1)),
    }
}

/// A named gate on other qubits.
pub fn on(example: Gate, a: usize, b: usize) -> Gate {
    match example {
        Gate::I(_) => Gate::I(a),
        Gate::H(_) => Gate::H(a),
        Gate::X(_) => Gate::X(a),
        Gate::Y(_) => Gate::Y(a),
        Gate::Z(_) => Gate::Z(a),
        Gate::S(_) => Gate::S(a),
        Gate::Sdg(_) => Gate::Sdg(a),
        Gate::Sx(_) => Gate::Sx(a),
        Gate::Sxdg(_) => Gate::Sxdg(a),
        Gate::Cnot(..) => Gate::Cnot(a, b),
        Gate::Cz(..) => Gate::Cz(a, b),
        Gate::Swap(..) => Gate::Swap(a, b),
        Gate::ISwap(..) => Gate::ISwap(a, b),
        Gate::ISwapdg(..) => Gate::ISwapdg(a, b),
        _ => panic!("{example:?} is no named gate"),
    }
}

/// Quarter turns and exchanges of neighbours, with flips and phases between.
fn rotations(rng: &mut Rng) -> List {
    let flags = rng.pick(&[0, RELABEL, DROP, DROP | RELABEL]);
    blocks(rng, sized, flags, |maker| maker.pair(neighbours), &[turn])
}

/// The same along a hidden order of the wires.
fn wires(rng: &mut Rng) -> List {
    let n = sized(rng);
    hidden(rng, n, 3 * n)
}

/// Wide lists, half of them along a hidden order.
pub fn wide(rng: &mut Rng) -> List {
    let n = rng.pick(&WIDE);
    let blocks = rng.between(n, BLOCKS);
    if rng.chance(1, 2) {
        return hidden(rng, n, blocks);
    }
    let mut maker = Maker::new(rng, n, 0);
    for _ in 0..blocks {
        flips(&mut maker);
        // near the first modes, so that turns meet
        let from = maker.rng.below(2) * maker.rng.below(n - 8);
        let near = |v: usize, w: usize| neighbours(v, w) && (from..from + 8).contains(&v.min(w));
        let pair = maker.pair(near);
        add(&mut maker, pair, &[turn]);
    }
    end(maker)
}

/// Exchanges by name, and turns and controlled phases times an exchange, which rename wires.
fn swaps(rng: &mut Rng) -> List {
    let flags = RELABEL | rng.pick(&[0, DROP]);
    blocks(
        rng,
        sized,
        flags,
        |maker| maker.fresh_pair(neighbours),
        &[turn, exchange, turned_exchange],
    )
}

/// The same turns, half of them between tails, some written so that rounding shows.
fn tails(rng: &mut Rng) -> List {
    let flags = rng.pick(&[0, RELABEL]);
    blocks(rng, sized, flags, |maker| maker.fresh_pair(neighbours), &[turn, conjugated])
}

/// Interactions between any two wires among the turns; they are dropped. A flip stands before a turn on one of its wires, since beside interactions
/// alone nothing takes it.
fn dropped(rng: &mut Rng) -> List {
    let n = sized(rng);
    let count = rng.between(n, 3 * n);
    let mut maker = Maker::new(rng, n, DROP);
    for _ in 0..count {
        if maker.rng.chance(1, 5) {
            let pair = maker.fresh_pair(|v, w| v != w);
            add(&mut maker, pair, &[interaction]);
        } else if let Some((a, b)) = maker.fresh_pair(neighbours) {
            let of = [Gate::X(a), Gate::Y(b), Gate::S(a), Gate::I(b)];
            let gate = maker.rng.pick(&of);
            maker.tail(&[gate]);
            add(&mut maker, Some((a, b)), &[turn]);
        }
    }
    end(maker)
}

type Pairs = fn(&mut Maker) -> Option<(usize, usize)>;
type Block = fn(&mut Rng, usize, usize) -> Blocked;

/// A block, or the explicit exchange.
enum Blocked {
    Piece(Piece),
    Swap,
}

fn sized(rng: &mut Rng) -> usize {
    let [least, most] = SIZES;
    rng.between(least, most)
}

fn blocks(
    rng: &mut Rng,
    size: fn(&mut Rng) -> usize,
    flags: u8,
    pairs: Pairs,
    of: &[Block],
) -> List {
    let n = size(rng);
    let count = rng.between(n, 3 * n);
    let mut maker = Maker::new(rng, n, flags);
    for _ in 0..count {
        flips(&mut maker);
        let pair = pairs(&mut maker);
        add(&mut maker, pair, of);
    }
    end(maker)
}

/// Turns on the wires that follow each other in an order that the engine must find.
fn hidden(rng: &mut Rng, n: usize, blocks: usize) -> List {
    let order = rng.permutation(n);
    let mut at = vec![0; n];
    order.iter().enumerate().for_each(|(k, &wire)| at[wire] = k);
    let mut maker = Maker::new(rng, n, REORDER);
    for _ in 0..blocks {
        flips(&mut maker);
        let pair = maker.pair(|v, w| neighbours(at[v], at[w]));
        add(&mut maker, pair, &[turn]);
    }
    end(maker)
}

fn add(maker: &mut Maker, pair: Option<(usize, usize)>, of: &[Block]) {
    let Some((a, b)) = pair else { return };
    let block = maker.rng.pick(of);
    match block(maker.rng, a, b) {
        Blocked::Piece(piece) => maker.block(a, b, piece),
        Blocked::Swap => maker.swap(a, b),
    }
}

/// A few flips and phases.
fn flips(maker: &mut Maker) {
    for _ in 0..maker.rng.below(3) {
        let q = maker.qubit();
        let of = [Gate::X(q), Gate::Y(q), Gate::X(q), Gate::Z(q), Gate::S(q), Gate::Sdg(q)];
        let gate = maker.rng.pick(&of);
        maker.tail(&[gate]);
    }
}

/// A quarter turn by XX or YY either way, or an iswap.
fn turn(rng: &mut Rng, a: usize, b: usize) -> Blocked {
    let gates = match rng.below(8) {
        0 => vec![Gate::ISwap(a, b)],
        1 => vec![Gate::ISwapdg(a, b)],
        2 => vec![Gate::Cnot(a, b), Gate::Sxdg(a), Gate::Cnot(a, b)],
        3 => {
            [vec![Gate::S(a), Gate::S(b)], quarter(a, b), vec![Gate::Sdg(a), Gate::Sdg(b)]].concat()
        }
        _ => quarter(a, b),
    };
    Blocked::Piece(Piece::still(gates))
}

fn exchange(_: &mut Rng, _: usize, _: usize) -> Blocked {
    Blocked::Swap
}

fn turned_exchange(rng: &mut Rng, a: usize, b: usize) -> Blocked {
    Blocked::Piece(match rng.chance(1, 2) {
        true => Piece::still(quarter(a, b)).swapped(a, b),
        false => Piece { gates: vec![Gate::Cz(a, b)], swaps: true },
    })
}

/// The turn by XX between tails that undo each other; or written as one by ZZ between H on both sides, with its quarter turn given by an angle, with a
/// controlled flip made of a controlled phase, where rounding shows in the map.
fn conjugated(rng: &mut Rng, a: usize, b: usize) -> Blocked {
    let sides = [Gate::H(a), Gate::H(b)];
    let zz = [Gate::Cnot(a, b), Gate::S(b), Gate::Cnot(a, b)];
    let by_angle = rng.pick(&[FRAC_PI_2, -FRAC_PI_2, PI]);
    let tail = rng.pick(&[[Gate::Sx(a), Gate::Sxdg(a)], [Gate::Sxdg(b), Gate::Sx(b)]]);
    Blocked::Piece(Piece::still(match rng.below(48) {
        0 => [&sides[..], &zz, &sides].concat(),
        1 => vec![Gate::Cnot(a, b), Gate::Rx(a, by_angle), Gate::Cnot(a, b)],
        2 => vec![Gate::H(b), Gate::Cz(a, b), Gate::H(b), Gate::Sx(a), Gate::Cnot(a, b)],
        _ => [&tail[..1], &quarter(a, b), &tail[1..]].concat(),
    }))
}

/// A controlled phase: the engine passes it over, whatever its angle.
fn interaction(rng: &mut Rng, a: usize, b: usize) -> Blocked {
    let t = rng.angle();
    Blocked::Piece(Piece::still(match rng.below(3) {
        0 => vec![Gate::CPhase(a, b, t)],
        1 => vec![Gate::ISwap(a, b), Gate::Cz(a, b), Gate::ISwap(a, b)],
        _ => vec![Gate::Cz(a, b)],
    }))
}

fn list(n: usize, flags: u8, gates: Vec<Gate>) -> List {
    List { n, flags, tol: TOL, limit: covariance_bytes(n), gates, queries: vec![] }
}

fn end(maker: Maker) -> List {
    list(maker.n, maker.flags, maker.gates)
}

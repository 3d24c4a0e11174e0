//! `compile` and whole runs: from the original's circuit, and from the port's bytes.

use super::{Each, Piece};
use crate::circuits::{brick_wall, many_cuts, random_neighbours, random_pairs, rotations, TAILED};
use crate::compile::same;
use crate::layout::{MAX_QUBITS, OP_PLACES};
use crate::lent::Lent;
use crate::rows::Row;
use crate::runs;
use oracle::compiled::answer::answer;
use oracle::list::List;
use oracle::rng::Rng;
use oracle::tape::tape;
use oracle::traced::traced;
use original::engines::gaussian::detect;
use original::engines::gaussian::state::GaussianState;
use std::hint::black_box;

/// Qubits and gates of most of them.
const QUBITS: usize = 60;
pub const GATES: usize = 1000;

/// Circuits with as many gates and blocks, and so many cuts of each block.
const CUTS: [(&str, usize, [usize; 2]); 2] = [
    ("compile 28 blocks of 324 cuts", 324, [17, 17]),
    ("compile 28 blocks of 36 cuts", 36, [33, 1]),
];

type Named = (String, List);

fn compiled(rng: &mut Rng) -> [Named; 6] {
    let [(many, _, equal), (few, _, unequal)] = CUTS;
    [
        ("compile brick wall".into(), brick_wall(QUBITS, GATES)),
        ("compile random neighbours".into(), random_neighbours(rng, QUBITS, GATES)),
        (many.into(), many_cuts(rng, QUBITS, equal)),
        ("compile rotations, phases".into(), rotations(rng, QUBITS, GATES)),
        at("compile random pairs", MAX_QUBITS, random_pairs(rng, MAX_QUBITS, GATES)),
        (few.into(), many_cuts(rng, QUBITS, unequal)),
    ]
}

fn run(rng: &mut Rng) -> [Named; 4] {
    [
        at("run brick wall", QUBITS, brick_wall(QUBITS, GATES)),
        at("run brick wall", MAX_QUBITS, brick_wall(MAX_QUBITS, GATES)),
        at("run rotations", QUBITS, rotations(rng, QUBITS, GATES)),
        at("run rotations", MAX_QUBITS, rotations(rng, MAX_QUBITS, GATES)),
    ]
}

/// A list of so many qubits.
fn at(name: &str, n: usize, list: List) -> Named {
    (format!("{name}, n = {n}"), list)
}

/// Whether both sides compile all of them to the same, and as many cuts are tried as their names say.
pub fn compiles_agree(rng: &mut Rng) -> bool {
    let named = |name: &str| CUTS.iter().find(|(other, ..)| *other == name);
    let cuts = |name: &str, list: &List| {
        named(name).is_none_or(|(_, cuts, _)| traced(list).tried == TAILED * cuts)
    };
    compiled(rng).iter().all(|(name, list)| same(list) && cuts(name, list))
}

/// Whether both sides run all of them to the same.
pub fn runs_agree(rng: &mut Rng) -> bool {
    run(rng).iter().all(|(_, list)| runs::same(list, &tape(list).expect("a tape")))
}

/// `compile` of those whose name has this part.
pub fn compiles(rng: &mut Rng, part: &str, each: Each) {
    for (name, list) in compiled(rng).iter().filter(|(name, _)| name.contains(part)) {
        compile(name, list, each);
    }
}

pub fn runs(rng: &mut Rng, each: Each) {
    run(rng).iter().for_each(|(name, list)| whole_run(name, list, each));
}

/// One cut: the difference between blocks of many and of few cuts.
pub fn one_cut(rows: &[Row]) -> Option<Row> {
    let find = |name: &str| rows.iter().find(|row| row.name == name);
    let [(many, more, _), (few, less, _)] = CUTS;
    let (many, few) = (find(many)?.sides, find(few)?.sides);
    Some(Row::of("one cut", TAILED * (more - less), [many[0] - few[0], many[1] - few[1]]))
}

/// The slices for a list, and its tape.
fn lent(list: &List) -> (Lent, Vec<u8>) {
    let operations = answer(list).0.ops.len() / OP_PLACES;
    (Lent::new(list.gates.len(), list.n, operations, 0), tape(list).expect("a tape"))
}

pub fn compile(name: &str, list: &List, each: Each) {
    let (circuit, options) = (list.circuit(), list.options().detect);
    let (mut lent, bytes) = lent(list);
    each(Piece {
        name,
        calls: 1,
        original: &mut || {
            black_box(detect::compile(&circuit, &options));
        },
        port: &mut || {
            black_box(lent.compile(&bytes));
        },
    });
}

pub fn whole_run(name: &str, list: &List, each: Each) {
    let (circuit, options) = (list.circuit(), list.options());
    let (mut lent, bytes) = lent(list);
    each(Piece {
        name,
        calls: 1,
        original: &mut || {
            black_box(GaussianState::from_circuit(&circuit, &options).is_ok());
        },
        port: &mut || {
            assert_eq!(lent.run(&bytes).refused, [0, 0]);
        },
    });
}

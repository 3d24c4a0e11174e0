//! The program `memory`: the most heap and stack in use during a whole run, one product of all qubits and one shot.

mod heap;
mod stack;

use bench::circuits::{brick_wall, rotations};
use bench::jozkeral::{self, State, Work};
use bench::layout::{state_places, INDEX_WORDS, MAX_QUBITS, OP_PLACES};
use oracle::compiled::answer::answer;
use oracle::list::List;
use oracle::rng::Rng;
use oracle::tape::tape;
use original::engines::gaussian::state::GaussianState;
use rand::Draws;
use stack::Stack;
use std::hint::black_box;

const GATES: usize = 1000;
const SEED: u64 = 1;

fn main() {
    println!(
        "{:<26} {:>14} {:>10} {:>14} {:>10} {:>8}",
        "bytes at most", "original heap", "stack", "port slices", "stack", "ratio"
    );
    for n in [60, MAX_QUBITS] {
        line(&format!("brick wall, n = {n}"), &brick_wall(n, GATES));
        line(&format!("rotations, n = {n}"), &rotations(&mut Rng::new(SEED), n, GATES));
    }
}

/// Measures both sides; the ratio is of heap and stack together. Circuit, tape and draws are there before.
fn line(name: &str, list: &List) {
    let rng = &mut Rng::new(SEED);
    let draws: Vec<f64> = (0..list.n).map(|_| rng.unit()).collect();
    let all: Vec<usize> = (0..list.n).collect();
    let (circuit, bytes) = (list.circuit(), tape(list).expect("a tape"));
    let operations = answer(list).0.ops.len() / OP_PLACES;
    let [a, b] = measured(&mut || {
        let run = GaussianState::from_circuit(&circuit, &list.options());
        let (s, _report) = run.expect("accepted");
        black_box(s.expectation_z_product(&all).expect("good qubits"));
        black_box(s.sample(1, &mut Draws(draws.iter())).expect("good draws"));
    });
    let [c, d] = measured(&mut || ported(list, operations, &bytes, &all, &draws));
    let ratio = (c + d) as f64 / (a + b) as f64;
    println!("{name:<26} {a:>14} {b:>10} {c:>14} {d:>10} {ratio:>8.2}");
}

/// The port's run and queries, in slices of exactly the lengths that it asks for. The queries work in the run's work.
fn ported(list: &List, operations: usize, tape: &[u8], all: &[usize], draws: &[f64]) {
    let n = list.n;
    let mut work = Work::new(list.gates.len(), n);
    let mut ops = vec![0.0; OP_PLACES * operations];
    let mut slice = vec![0.0; state_places(n)];
    let (report, told) = jozkeral::run(tape, &mut work, &mut ops, &mut slice);
    told.expect("accepted");
    let state = State { n, slice: &slice, modes: report.modes() };
    black_box(state.expectation_z_product(all, &mut work.floats).expect("good qubits"));
    let mut shot = [0; INDEX_WORDS];
    state.sample(1, draws, &mut work.floats, &mut shot).expect("good draws");
    black_box(shot);
}

/// The most bytes of heap and of stack.
fn measured(call: &mut dyn FnMut()) -> [usize; 2] {
    let mut stack = Stack::new();
    let heap = heap::peak(|| stack.call(call));
    [heap, stack.depth()]
}

//! Sign cases: parity-odd operations between rotations, where one lost turn of
//! the signs changes the answers.

use super::machine::Machine;
use super::op;
use crate::families::pieces;
use crate::layout::kind;
use original::access::detect::access as detect;
use original::access::detect::GaussOp;
use original::access::state::{access, GaussianState};
use original::gate::Gate;

/// A map, and the mode that it is on, or the first of two.
type Step = (usize, Map);

#[derive(Clone, Copy)]
enum Map {
    One([[f64; 2]; 2]),
    Two([[f64; 4]; 4]),
}

/// Cases by name: number of modes and steps.
fn cases() -> Vec<(&'static str, usize, Vec<Step>)> {
    let xx = |mode| (mode, pair(&pieces::xx(0, 1, 0.7)));
    let turn = |mode, t| (mode, one(Gate::Rz(0, t)));
    let (x, y) = (|mode| (mode, one(Gate::X(0))), |mode| (mode, one(Gate::Y(0))));
    let odd_pair = |mode| (mode, pair(&[Gate::ISwap(0, 1), Gate::X(0)]));
    vec![
        ("x between two rotations of its own pair", 2, vec![xx(0), x(0), xx(0)]),
        ("y between two rotations of its own pair", 2, vec![xx(0), y(0), xx(0)]),
        ("x before the pair that rotates", 3, vec![xx(0), xx(1), x(0), xx(1), xx(0)]),
        ("x two modes before", 4, vec![xx(0), xx(1), xx(2), x(0), xx(2), xx(1), xx(0)]),
        ("x in the middle", 3, vec![xx(0), xx(1), x(1), xx(1), turn(2, 0.4), xx(0)]),
        ("an odd pair between rotations", 3, vec![xx(1), xx(0), odd_pair(0), xx(1), xx(0), xx(1)]),
        (
            "two turns that meet",
            4,
            vec![
                xx(0),
                turn(1, 0.4),
                xx(1),
                xx(2),
                x(0),
                y(1),
                xx(1),
                turn(2, 0.3),
                xx(2),
                xx(1),
                xx(0),
            ],
        ),
        (
            "a turn of signs that are negative",
            3,
            vec![xx(0), x(0), xx(1), xx(0), x(0), xx(1), x(1), xx(1), xx(0)],
        ),
    ]
}

/// The cases: number of modes, and the places of each operation.
pub fn lists() -> Vec<(usize, Vec<Vec<f64>>)> {
    let all = |steps: Vec<Step>| steps.into_iter().map(|(mode, map)| places(mode, map)).collect();
    cases().into_iter().map(|(_, n, steps)| (n, all(steps))).collect()
}

pub fn add(machine: &mut Machine) {
    for (name, n, steps) in cases() {
        for lost in (0..steps.len()).filter(|&k| odd(&steps[k], n)) {
            assert!(turn_matters(n, &steps, lost), "{name}: a turn lost at {lost} changes nothing");
        }
        machine.vacuum(n);
        for &(mode, map) in &steps {
            machine.apply(&places(mode, map));
        }
        machine.ask_all();
    }
}

/// The map of a one-qubit gate.
fn one(g: Gate) -> Map {
    Map::One(detect::majorana_map1(&g.matrix_1q().expect("a one-qubit gate")).0)
}

/// The map of gates on two neighbours.
fn pair(gates: &[Gate]) -> Map {
    Map::Two(detect::majorana_map2(&pieces::matrix(gates)).0)
}

fn places(mode: usize, map: Map) -> Vec<f64> {
    match map {
        Map::One(q) => op(kind::ONE, mode as f64, q.as_flattened()),
        Map::Two(q) => op(kind::TWO, mode as f64, q.as_flattened()),
    }
}

fn original((mode, map): Step) -> GaussOp {
    match map {
        Map::One(q) => GaussOp::One { mode, q },
        Map::Two(q) => GaussOp::Two { mode, q },
    }
}

/// Whether a step turns the signs of later modes.
fn odd(&(mode, map): &Step, n: usize) -> bool {
    match map {
        Map::One(q) => mode + 1 < n && access::det::<2>(q.as_flattened()) < 0.0,
        Map::Two(q) => mode + 2 < n && access::det::<4>(q.as_flattened()) < 0.0,
    }
}

/// Whether some Z differs by more than 0.01 if the turn of one step is lost.
fn turn_matters(n: usize, steps: &[Step], lost: usize) -> bool {
    let run = |lost: usize| -> Vec<f64> {
        let mut s = GaussianState::vacuum(n);
        for (k, &step) in steps.iter().enumerate() {
            let before = access::d(&s).to_vec();
            s.apply(&original(step));
            if k == lost {
                let mut d = access::d(&s).to_vec();
                let own = 2 * step.0 + if matches!(step.1, Map::One(_)) { 2 } else { 4 };
                d[own..].copy_from_slice(&before[own..]);
                s = access::state(n, access::m(&s).to_vec(), d, (0..n).collect());
            }
        }
        (0..n).map(|q| s.expectation_z_product(&[q]).expect("a good qubit")).collect()
    };
    run(lost).iter().zip(run(steps.len())).any(|(a, b)| (a - b).abs() > 0.01)
}

//! Operations put to both engines: the slice of the one, the matrix of the plain one. First the lists of `signs`, then random ones, of
//! which each shows what its family is about.

use super::machine::Machine;
use super::{op, signs};
use crate::layout::{kind, question, OP_PLACES};
use crate::plain::lists::{list, FAMILIES};
use crate::plain::{self, asked, covariance, same_along, same_but_zeros, Fault, Plain, FAULTS};
use crate::rng::Rng;

/// Modes and operations of a random list, and how many lists are tried for one.
const MODES: usize = 3;
const LENGTH: usize = 6;
const TRIED: usize = 100_000;

/// What a list shows.
struct Seen {
    /// Refused operations.
    refused: usize,
    /// Maps of two modes that turn later ones, and maps whose determinant is zero.
    turns_of_two: usize,
    zero: usize,
    /// Faulty plain engines that come to another matrix.
    faults: usize,
    /// The plain matrix at the end.
    entries: Vec<f64>,
}

/// What a list of a family must show.
const SHOWN: [(&str, fn(&Seen) -> bool); FAMILIES.len()] = [
    ("gates", |seen| seen.refused > 0 && seen.faults == FAULTS.len()),
    ("permutations", |seen| seen.turns_of_two > 1 && seen.faults == FAULTS.len()),
    ("floats", |seen| seen.turns_of_two > 1 && seen.faults == FAULTS.len()),
    ("singular", |seen| seen.zero > 0 && seen.faults == FAULTS.len()),
    ("extreme", |seen| seen.entries.iter().any(|x| x.is_infinite()) && seen.faults == FAULTS.len()),
    ("nan", |seen| seen.entries.iter().any(|x| x.is_nan()) && seen.faults == FAULTS.len()),
];

pub fn add(machine: &mut Machine) {
    for (n, ops) in signs::lists() {
        assert!(seen(n, &ops).faults > 0, "a list of signs that shows no fault");
        both(machine, n, &ops);
    }
    let rng = &mut Rng::new(17);
    for ((name, numbers), (named, shows)) in FAMILIES.into_iter().zip(SHOWN) {
        assert_eq!(name, named);
        let mut lists = (0..TRIED).map(|_| cut(list(rng, MODES, numbers)));
        let shown = lists.find(|ops| shows(&seen(MODES, ops)));
        both(machine, MODES, &shown.unwrap_or_else(|| panic!("no list of {name}")));
    }
    few_modes(machine);
    refused_states(machine);
}

/// The first operations of a list.
fn cut(ops: Vec<Vec<f64>>) -> Vec<Vec<f64>> {
    ops.into_iter().take(LENGTH).collect()
}

fn seen(n: usize, ops: &[Vec<f64>]) -> Seen {
    let maps = || ops.iter().filter_map(|op| asked(n, op).ok().flatten());
    let mut along = plain::along(n, ops, Fault::None);
    let differs = |fault: &&Fault| !same_along(&plain::along(n, ops, **fault), &along);
    let faults = FAULTS.iter().filter(differs).count();
    Seen {
        refused: ops.iter().filter(|op| asked(n, op).is_err()).count(),
        turns_of_two: maps().filter(|map| map.of_two_modes() && map.turns(n)).count(),
        zero: maps().filter(|map| map.det() == 0.0).count(),
        faults,
        entries: along.pop().unwrap_or_default(),
    }
}

/// A list from the vacuum, put to both engines. After each operation stands the plain matrix, after the last the slice.
fn both(machine: &mut Machine, n: usize, ops: &[Vec<f64>]) {
    machine.vacuum(n);
    let mut plain = Plain::vacuum(n);
    for op in ops {
        assert_eq!(machine.put(op), plain.apply(op), "a number");
        assert!(same_but_zeros(&covariance(n, machine.slice()), &plain.entries()), "entries");
        machine.plain(&plain.entries());
    }
    machine.holds();
}

/// No mode, and one or two; then operations on two that 17 refuses: a bad kind, a bad mode, no next mode, too few places.
fn few_modes(machine: &mut Machine) {
    let flip = |mode| op(kind::ONE, mode, &[0.6, 0.8, 0.8, -0.6]);
    let two = |mode| op(kind::TWO, mode, &[0.5; 16]);
    for n in [0, 1] {
        both(machine, n, &[flip(0.0), two(0.0), op(kind::INTERACTION, 9.0, &[])]);
    }
    let short = flip(0.0)[..OP_PLACES - 1].to_vec();
    let refused = [op(4.0, 0.0, &[]), flip(f64::NAN), two(1.0), short, vec![]];
    assert!(refused.iter().all(|op| asked(2, op).is_err()), "17 lets one pass");
    both(machine, 2, &[&[flip(0.0), two(0.0)], &refused[..]].concat());
}

/// Question 16: 129 modes, in a slice that is too short for them; and two in one that is a place too short for the matrix.
fn refused_states(machine: &mut Machine) {
    for (n, places) in [(129, 16), (2, 15)] {
        machine.state(n, &[0.5; 16][..places], &[0, 1]);
        let number = machine.put(&op(kind::ONE, 0.0, &[1.0, 0.0, 0.0, -1.0]));
        assert_eq!(number, question::BAD_STATE);
        machine.holds();
    }
}

//! Parity-odd blocks between rotations: tapes on which an engine that loses a
//! turn of the signs gives another Z.

use super::asked;
use super::faults::{turns, z, Fault, FAULTS};
use super::ran::Ran;
use super::{add_run, TOL};
use crate::check::Counts;
use crate::families::pieces::{quarter, xx};
use crate::layout::covariance_bytes;
use crate::list::{List, RELABEL, REORDER};
use crate::query::Query;
use crate::records::Records;
use crate::rng::Rng;
use crate::tape::tape;
use original::gate::Gate;

/// Random tapes beside the named ones; the first of them are long, and show every fault.
const RANDOM: usize = 40;
const LONG: usize = 10;

/// Differences of Z that count.
const CLEAR: f64 = 0.01;

/// What the tapes show.
#[derive(Default, Debug)]
struct Shown {
    faults: [usize; FAULTS.len()],
    /// Answers with the row 0 or a later one.
    rows: [usize; 2],
}

pub fn add(out: &mut Records, rng: &mut Rng) {
    let mut shown = Shown::default();
    for Named { list, right, fault, wrong } in named() {
        let ran = Ran::of(&list);
        assert_eq!(z(list.n, &ran.compiled.ops, Fault::None), right);
        assert_eq!(z(list.n, &ran.compiled.ops, fault), wrong);
        store(out, &list, &ran, &mut shown);
    }
    let mut count = 0;
    while count < RANDOM {
        let faults = if count < LONG { &FAULTS[..] } else { &FAULTS[..1] };
        let list = random(&mut rng.split(), count);
        count += usize::from(stored(out, &list, faults, &mut shown));
    }
    let often = shown.faults[1].min(shown.faults[3]) > RANDOM / 2;
    assert!(often && shown.rows[0].min(shown.rows[1]) >= 3, "what few tapes show: {shown:?}");
}

/// A tape with each Z, a fault that it shows, and each Z of an engine with this fault.
struct Named {
    list: List,
    right: Vec<f64>,
    fault: Fault,
    wrong: Vec<f64>,
}

/// Two tapes that show no turn, and one that shows a turn of the next mode only: of four qubits, since the others have no mode after the next.
fn named() -> [Named; 3] {
    use Gate::*;
    let first = [quarter(1, 2), vec![X(0)], quarter(0, 1), quarter(1, 2)].concat();
    let second = [quarter(0, 1), vec![X(0), ISwap(1, 2), ISwap(0, 1)], quarter(1, 2)].concat();
    let third = [quarter(2, 3), vec![X(0)], quarter(0, 1), quarter(1, 2), quarter(2, 3)].concat();
    let rng = &mut Rng::new(0);
    let mut row = |gates, fault, right: &[f64], wrong: &[f64]| {
        let list = of(rng, right.len(), 0, gates);
        Named { list, right: right.to_vec(), fault, wrong: wrong.to_vec() }
    };
    [
        row(first, Fault::NoTurn, &[0.0, 0.0, -1.0], &[0.0, 0.0, 1.0]),
        row(second, Fault::NoTurn, &[1.0, 1.0, -1.0], &[1.0, -1.0, 1.0]),
        row(third, Fault::TurnNext, &[0.0, 0.0, 0.0, -1.0], &[0.0, 0.0, 0.0, 1.0]),
    ]
}

/// Adds a tape, if an engine with any of the faults, and one that loses a single turn, give another Z.
fn stored(out: &mut Records, list: &List, faults: &[Fault], shown: &mut Shown) -> bool {
    let ran = Ran::of(list);
    if !ran.accepted() || ran.seen.angled {
        return false;
    }
    let shows = |fault: Fault| shows(list.n, &ran.compiled.ops, fault);
    let single = turns(list.n, &ran.compiled.ops).into_iter().any(|k| shows(Fault::Lost(k)));
    if !faults.iter().all(|&fault| shows(fault)) || !single {
        return false;
    }
    store(out, list, &ran, shown);
    true
}

/// Whether an engine with the fault gives another Z.
fn shows(n: usize, ops: &[f64], fault: Fault) -> bool {
    let apart = |(a, b): (f64, f64)| (a - b).abs() > CLEAR;
    z(n, ops, Fault::None).into_iter().zip(z(n, ops, fault)).any(apart)
}

/// Adds a tape, and notes what it shows.
fn store(out: &mut Records, list: &List, ran: &Ran, shown: &mut Shown) {
    let ops = &ran.compiled.ops;
    assert!(is_right(list, ran, &z(list.n, ops, Fault::None)), "another Z:\n{list}");
    assert!(add_run(out, &tape(list).expect("a tape"), list, ran), "room for a tape");
    for (fault, count) in FAULTS.into_iter().zip(&mut shown.faults) {
        *count += usize::from(shows(list.n, ops, fault));
    }
    let rows = asked::all(list, ran).into_iter().filter_map(|asked| asked.row());
    rows.for_each(|row| shown.rows[usize::from(row > 0)] += 1);
}

/// The engine written again gives the original's Z, and these are a state vector's.
fn is_right(list: &List, ran: &Ran, z: &[f64]) -> bool {
    let original = ran.original.as_ref().expect("a state");
    let mut counts = Counts::default();
    counts.check(list);
    counts.wrong == 0
        && (0..list.n).all(|q| {
            original
                .expectation_z_product(&[q])
                .is_ok_and(|x| (x - z[original.mode_of_qubit(q)]).abs() < 1e-12)
        })
}

/// A list with every Z and some other queries.
fn of(rng: &mut Rng, n: usize, flags: u8, gates: Vec<Gate>) -> List {
    let mut queries: Vec<Query> = (0..n).map(Query::z).collect();
    queries.push(Query::Product(vec![0, n - 1]));
    queries.extend((1..n).map(|q| Query::Product(vec![q, q - 1])));
    queries.push(Query::Product((0..n).collect()));
    queries.push(Query::Marginal(vec![n - 1, 0], vec![rng.chance(1, 2), rng.chance(1, 2)]));
    queries.push(Query::Probability(u128::from(rng.word())));
    queries.push(Query::Sample(1, (0..n).map(|_| rng.unit()).collect()));
    List { n, flags, tol: TOL, limit: covariance_bytes(n), gates, queries }
}

/// Rotations and exchanges of neighbours with flips between them; every third tape turns by any
/// angle, every second has its wires in another order.
fn random(rng: &mut Rng, k: usize) -> List {
    let (n, blocks) = match k < LONG {
        true => (5, rng.between(6, 9)),
        false => (rng.between(3, 5), rng.between(3, 6)),
    };
    let (wire, flags) = match k % 2 {
        0 => ((0..n).collect(), rng.pick(&[0, RELABEL])),
        _ => (rng.permutation(n), REORDER),
    };
    let mut gates = Vec::new();
    let mut last = n;
    for _ in 0..blocks {
        if rng.chance(1, 2) {
            let q = rng.below(n);
            gates.push(if rng.chance(1, 2) { Gate::X(q) } else { Gate::Y(q) });
        }
        let at = rng.below(n - 1);
        if at != last {
            let (a, b) = (wire[at], wire[at + 1]);
            gates.extend(match rng.below(4) {
                0 => vec![Gate::ISwap(a, b)],
                _ if k % 3 == 0 => xx(a, b, rng.angle()),
                _ => quarter(a, b),
            });
            last = at;
        }
    }
    of(rng, n, flags, gates)
}

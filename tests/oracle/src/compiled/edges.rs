//! The edges of document 01 that are about `compile`, and the questions 1 to 10.
//! Refusals are by the paper: the original has no tape and no limits.

use super::{accepted, add as add_record, plain, Lent, TOL};
use crate::compiled::answer::{answer, Compiled};
use crate::layout::{HEADER_BYTES, MAX_GATES, MAX_QUBITS, OP_PLACES};
use crate::list::{List, DROP, RELABEL, REORDER};
use crate::records::Records;
use crate::tape::tape;
use original::gate::Gate;

fn of(n: usize, flags: u8, gates: &[Gate]) -> List {
    List { n, flags, tol: TOL, limit: 0, gates: gates.to_vec(), queries: vec![] }
}

fn bytes(list: &List) -> Vec<u8> {
    tape(list).expect("a tape")
}

pub fn add(out: &mut Records) {
    for list in accepted_lists() {
        assert!(plain(out, &list, |_| true), "room for an edge");
    }
    labels(out);
    for (bytes, number, place) in refused_tapes() {
        refused(out, &bytes, Lent([3, 2, 4]), [0, 0], [number, place as u64]);
    }
    slices(out);
}

/// Those that are answered.
fn accepted_lists() -> Vec<List> {
    use Gate::*;
    const BOTH: u8 = RELABEL | REORDER;
    let mut all = vec![
        of(0, BOTH, &[]),
        of(1, BOTH, &[]),
        of(3, 0, &[]),
        of(MAX_QUBITS, BOTH, &[]),
        of(MAX_QUBITS, BOTH, &[ISwap(0, 127), X(127), ISwap(126, 127), Swap(3, 64)]),
        of(1, BOTH, &[X(0); MAX_GATES]),
        of(3, BOTH, &[ISwap(0, 2)]),
        of(3, RELABEL, &[ISwap(0, 2)]),
        of(3, BOTH, &[ISwap(0, 1), ISwap(1, 2), ISwap(0, 2)]),
        of(1, BOTH, &[H(0)]),
        of(2, BOTH, &[Cnot(0, 1)]),
        of(3, BOTH, &[Ccx(0, 1, 2)]),
        of(2, BOTH, &[X(0), ISwap(0, 1)]),
        // a flip between rotations: a lost turn would show
        of(
            2,
            BOTH,
            &[Cnot(0, 1), Rx(0, 0.5), Cnot(0, 1), X(0), Cnot(0, 1), Rx(0, 1.5), Cnot(0, 1)],
        ),
    ];
    for flags in [0, RELABEL, REORDER, BOTH, DROP] {
        all.push(of(2, flags, &[Cz(0, 1)]));
        all.push(of(2, flags, &[Swap(0, 1)]));
    }
    for tol in [0.0, -0.0, 0.001] {
        all.push(List { tol, ..of(2, BOTH, &[ISwap(1, 0), X(0)]) });
    }
    all
}

/// Labels after the header, between gates and at the end change nothing.
fn labels(out: &mut Records) {
    let list = of(2, REORDER, &[Gate::X(1), Gate::ISwap(0, 1)]);
    let whole = bytes(&list);
    let label = [&[0x51, 0x4c, 40][..], &[b'~'; 40]].concat();
    let none = [0x51, 0x4c, 0];
    let (head, flip, last) = (&whole[..HEADER_BYTES], &whole[HEADER_BYTES..24], &whole[24..]);
    let tape = [head, &label, flip, &none, last, &label].concat();
    assert!(accepted(out, &list, &tape, |_| true), "room for labels");
}

/// Adds a refusal.
fn refused(out: &mut Records, bytes: &[u8], lent: Lent, zeros: [usize; 2], refused: [u64; 2]) {
    let answer = Compiled { refused, ..Compiled::default() };
    assert!(add_record(out, bytes, lent, zeros, &answer), "room for a refusal");
}

/// Tapes that the questions 1 to 8 refuse, with number and place.
pub fn refused_tapes() -> Vec<(Vec<u8>, u64, usize)> {
    use Gate::*;
    let good = bytes(&of(2, 3, &[X(0), ISwap(0, 1)]));
    let end = good.len();
    let with = |at: usize, byte: u8| {
        let mut tape = good.clone();
        tape[at] = byte;
        tape
    };
    let then = |more: &[u8]| [&good[..], more].concat();
    let tol = |x: f64| [&good[..4], &x.to_le_bytes(), &good[12..]].concat();
    let mut many = bytes(&of(1, 0, &[X(0); MAX_GATES]));
    many.extend([0x51, 0x47, 0x02, 9]);
    let given = |x: f64| {
        let entries = [0.0, 0.0, 1.0, 0.0, 1.0, 0.0, x, 0.0];
        then(&[&[0x51, 0x47, 0x0f, 1], entries.map(f64::to_le_bytes).as_flattened()].concat())
    };
    let above = |x: f64| f64::from_bits(x.to_bits() + 1);
    vec![
        (vec![], 1, 0),
        (good[..HEADER_BYTES - 1].to_vec(), 1, 0),
        (with(1, 0x47), 1, 0),
        (with(2, 129), 2, 0),
        (with(3, 8), 2, 0),
        (tol(above(0.001)), 3, 0),
        (tol(-f64::from_bits(1)), 3, 0),
        (tol(f64::NAN), 3, 0),
        (many, 4, HEADER_BYTES + 4 * MAX_GATES),
        (good[..end - 1].to_vec(), 5, 24),
        (then(&[0x51]), 5, end),
        (with(22, 0x09), 5, HEADER_BYTES),
        (then(&good[..HEADER_BYTES]), 5, end),
        (then(&[0x51, 0x4c, 41]), 5, end),
        (then(&[0x51, 0x4c, 1, 0x7f]), 5, end),
        (with(23, 2), 6, HEADER_BYTES),
        (with(28, 0), 7, 24),
        (given(above(2.0)), 8, end),
        (given(f64::NAN), 8, end),
    ]
}

/// Questions 9 and 10 at their edges: each slice exactly long enough, and one place short.
fn slices(out: &mut Records) {
    use Gate::*;
    for gates in [&[X(0), ISwap(0, 1), ISwap(1, 2)][..], &[Cz(0, 1), T(2)], &[Ccx(0, 1, 2)], &[]] {
        let list = of(3, 0, gates);
        let (tape, (compiled, _)) = (bytes(&list), answer(&list));
        let Lent(enough) = Lent::exactly(gates.len(), 3, compiled.ops.len() / OP_PLACES);
        let zeros = [enough[0], enough[1]];
        assert!(add_record(out, &tape, Lent(enough), zeros, &compiled));
        for k in 0..3 {
            let mut short = enough;
            short[k] = short[k].saturating_sub(1);
            match (k, enough[k]) {
                (2, 0) => {}
                (2, _) => refused(out, &tape, Lent(short), zeros, [10, 0]),
                _ => refused(out, &tape, Lent(short), [0, 0], [9, 0]),
            }
        }
    }
}

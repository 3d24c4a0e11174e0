//! The lists of docs/DIFFERENCES.md on which runs of port and original differ: whether they still do, as told there.

use super::ported::Ported;
use oracle::answer::{answer, Answer};
use oracle::list::{List, RELABEL};
use oracle::query::Query;
use oracle::run::state;
use oracle::tape::tape;
use original::gate::Gate;

/// Operations of these lists at most.
const OPERATIONS: usize = 3;

/// Prints how many differ as told; whether all do.
pub fn end() -> bool {
    use Gate::*;
    let found = [
        verdicts(&of(RELABEL, 0.0, &[Phase(0, 3.0), ISwap(0, 1), Cz(0, 1)])) == [13, 0],
        verdicts(&of(0, 0.0, &[Cz(0, 1), Rz(1, 0.3), Phase(0, 2.0), Cz(0, 1)])) == [0, 13],
        shots(&of(0, 1e-10, &[Cz(0, 1), Phase(0, 3.0), Cz(0, 1), X(0)])) == [0, 1],
    ];
    let told = found.iter().filter(|&&differs| differs).count();
    println!("runs known differences: {told} of {}", found.len());
    told == found.len()
}

fn of(flags: u8, tol: f64, gates: &[Gate]) -> List {
    List { n: 2, flags, tol, limit: 1 << 30, gates: gates.to_vec(), queries: vec![] }
}

fn ported(list: &List, operations: usize) -> Ported {
    Ported::of(&tape(list).expect("a tape"), list.n, operations)
}

/// The original's refusal, or 0, and the port's.
fn verdicts(list: &List) -> [u64; 2] {
    let theirs = state(list).err().unwrap_or(0);
    [theirs.into(), ported(list, OPERATIONS).told.refused[0]]
}

/// One shot of each side, with draws of 0.0.
fn shots(list: &List) -> [u128; 2] {
    let query = Query::Sample(1, vec![0.0; list.n]);
    let theirs = answer(&state(list).expect("a state"), list, &query);
    let ours = ported(list, 2).ran(list.n).slice.ask(&query).0;
    [theirs, ours].map(|answer| match answer {
        Answer::Shots(shots) => shots[0],
        _ => u128::MAX,
    })
}

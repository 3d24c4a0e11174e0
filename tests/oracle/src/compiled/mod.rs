//! The stored lists of tapes and what `compile` answers to them. A record is a
//! tag, the length of the tape, how many words follow in all, the tape, the
//! lent slices, and the answer. docs/TESTING.md says more.

pub mod answer;
pub mod edges;
pub mod graphs;
mod random;

use crate::bits::word;
use crate::layout::{work_floats, work_marks, OP_PLACES};
use crate::list::List;
use crate::records::{Records, FULL};
use crate::tape::{gates_on, tape};
use answer::{answer, Compiled};

/// The only tag.
const TAPE: u64 = 1;

/// The tolerance of the tapes made here.
const TOL: f64 = 1e-10;

/// What stands in the operation slice before the call.
const OLD: f64 = 7.0;

/// The lengths of the slices that are lent: work's floats and numbers, operation places.
#[derive(Clone, Copy)]
struct Lent([usize; 3]);

impl Lent {
    /// What questions 9 and 10 ask for: the places for so many gates, qubits and operations.
    fn exactly(gates: usize, n: usize, operations: usize) -> Lent {
        Lent([work_floats(gates, n), work_marks(gates, n), OP_PLACES * operations])
    }

    /// With some places more.
    fn more(self, places: [usize; 3]) -> Lent {
        Lent(std::array::from_fn(|k| self.0[k] + places[k]))
    }
}

/// Adds a tape with the slices that are lent to it and how many of work's places are zero afterwards.
fn add(out: &mut Records, bytes: &[u8], lent: Lent, zeros: [usize; 2], c: &Compiled) -> bool {
    let mut body: Vec<u64> = lent.0.iter().chain(&zeros).map(|&x| x as u64).collect();
    body.extend(c.words());
    body.extend((c.ops.len()..lent.0[2]).map(|_| word(OLD)));
    out.tape(FULL, TAPE, bytes, &body)
}

/// Adds a list; nothing, and false, if document 01 does not compare the two engines there, or if
/// there is no room. The slices are a few places longer than they must be.
fn accepted(
    out: &mut Records,
    list: &List,
    bytes: &[u8],
    wanted: impl Fn(&Compiled) -> bool,
) -> bool {
    let (compiled, seen) = answer(list);
    let (gates, operations) = (gates_on(bytes), compiled.ops.len() / OP_PLACES);
    let exactly = Lent::exactly(gates, list.n, operations);
    let zeros = [exactly.0[0], exactly.0[1]];
    let lent = exactly.more([operations % 3, gates % 3, gates % 4]);
    !seen.apart && wanted(&compiled) && add(out, bytes, lent, zeros, &compiled)
}

/// Adds a list with its own tape.
fn plain(out: &mut Records, list: &List, wanted: impl Fn(&Compiled) -> bool) -> bool {
    tape(list).is_ok_and(|bytes| accepted(out, list, &bytes, wanted))
}

/// The list of a name.
pub fn list(name: &str) -> Result<Vec<u8>, String> {
    let mut out = Records::default();
    match name {
        "edges" => edges::add(&mut out),
        "graphs" => graphs::add(&mut out),
        "exact" => random::exact(&mut out),
        "angled" => random::angled(&mut out),
        _ => return Err(format!("there is no list `{name}`: edges, graphs, exact or angled")),
    }
    Ok(out.bytes())
}

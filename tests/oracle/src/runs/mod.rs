//! The stored lists of whole runs: a tape, the slices lent to it, what `run`
//! answers and leaves in them, and queries put to the state with their
//! answers. docs/TESTING.md says more.

mod asked;
mod edges;
pub mod faults;
mod mixed;
mod pack;
mod ran;
mod register;
mod signs;

use crate::bits::word;
use crate::layout::{work_floats, work_marks};
use crate::list::List;
use crate::records::{words_of, Records, LARGEST};
use crate::rng::Rng;
use crate::tape::gates_on;
use asked::Asked;
use pack::pack;
use ran::Ran;

/// The only tag of a record; in it a tag 0 stands after the last query.
const TAPE: u64 = 1;
const END: u64 = 0;

/// The tolerance of the tapes made here.
const TOL: f64 = 1e-10;

/// What stands in operation and state slice before the call.
const OLD: f64 = 7.0;

/// The lengths of the slices that are lent: work's floats and numbers, operation and state places.
type Lent = [usize; 4];

/// What questions 9, 10 and 15 ask for.
fn exactly(gates: usize, n: usize, ran: &Ran) -> Lent {
    [work_floats(gates, n), work_marks(gates, n), ran.places, ran.state.len()]
}

/// Adds a tape with the slices that are lent to it; `zeros` is how many places of work are zero
/// afterwards. Nothing, and false, if there is no room.
fn add(
    out: &mut Records,
    bytes: &[u8],
    lent: Lent,
    zeros: [usize; 2],
    ran: &Ran,
    queries: &[Asked],
) -> bool {
    let mut words: Vec<u64> = lent.iter().chain(&zeros).map(|&x| x as u64).collect();
    words.extend(ran.compiled.words());
    words.extend((ran.compiled.ops.len()..lent[2]).map(|_| word(OLD)));
    words.extend(ran.state.iter().map(|&x| word(x)));
    words.extend((ran.state.len()..lent[3]).map(|_| word(OLD)));
    queries.iter().for_each(|q| words.extend(q.words()));
    words.push(END);
    let body = [&[words.len() as u64], &words_of(&pack(&words))[..]].concat();
    out.tape(LARGEST, TAPE, bytes, &body)
}

/// Adds a tape and what the run of a list makes of it, with slices a few places longer than they
/// must be, and the list's queries.
fn add_run(out: &mut Records, bytes: &[u8], list: &List, ran: &Ran) -> bool {
    let gates = gates_on(bytes);
    let enough = exactly(gates, list.n, ran);
    let more = [gates % 3, list.n % 3, gates % 4, list.n % 2 + 1];
    let lent = std::array::from_fn(|k| enough[k] + more[k]);
    let queries = if ran.accepted() { asked::all(list, ran) } else { vec![] };
    add(out, bytes, lent, [enough[0], enough[1]], ran, &queries)
}

/// The list of a name; the stored one has seed 0, others have other random tapes.
pub fn list(name: &str, seed: u64) -> Result<Vec<u8>, String> {
    let rng = &mut Rng::new(seed);
    let mut out = Records::default();
    match name {
        "edges" => edges::add(&mut out),
        "register" => register::add(&mut out, rng),
        "signs" => signs::add(&mut out, rng),
        "mixed" => mixed::add(&mut out, rng),
        _ => {
            return Err(format!("there is no list `{name}`: edges, register, signs or mixed"));
        }
    }
    Ok(out.bytes())
}

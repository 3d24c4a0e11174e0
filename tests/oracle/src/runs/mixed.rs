//! Random lists: matchgates with flips, reordered wires, interactions dropped,
//! and a few that are refused.

use super::add_run;
use super::ran::Ran;
use crate::check::Counts;
use crate::families;
use crate::layout::{ordering, word};
use crate::list::{List, DROP};
use crate::records::Records;
use crate::rng::Rng;
use crate::tape::tape;

/// Qubits and tape bytes of a list at most, so that there is room for many.
const MOST_QUBITS: usize = 6;
const MOST_BYTES: usize = 900;

/// What a list is about, and the family that it comes from.
#[derive(Clone, Copy)]
enum Kind {
    /// Every bit of operations and state is the original's own.
    Plain,
    Reordered,
    Dropped,
    Refused,
}

const KINDS: [(Kind, &str); 8] = [
    (Kind::Plain, "matchgate"),
    (Kind::Reordered, "reorder"),
    (Kind::Dropped, "angles"),
    (Kind::Plain, "matchgate"),
    (Kind::Reordered, "reorder"),
    (Kind::Plain, "tails"),
    (Kind::Dropped, "angles"),
    (Kind::Refused, "reorder"),
];

/// One list of each kind in turn, as long as there is room.
pub fn add(out: &mut Records, rng: &mut Rng) {
    let mut count = 0;
    loop {
        let (kind, family) = KINDS[count % KINDS.len()];
        let (list, ran) = random(rng, kind, family);
        let mut counts = Counts::default();
        counts.check(&list);
        assert_eq!(counts.wrong, 0, "a state vector gives another answer:\n{list}");
        if !add_run(out, &tape(&list).expect("a tape"), &list, &ran) {
            break;
        }
        count += 1;
    }
    assert!(count >= 4 * KINDS.len(), "{count} lists");
}

/// A list of a kind, with its run.
fn random(rng: &mut Rng, kind: Kind, family: &str) -> (List, Ran) {
    let make = families::find(family).expect("a family");
    loop {
        let mut list = make(&mut rng.split());
        if let Kind::Dropped = kind {
            list.flags |= DROP;
        }
        if list.n > MOST_QUBITS || tape(&list).expect("a tape").len() > MOST_BYTES {
            continue;
        }
        let ran = Ran::of(&list);
        if !ran.seen.apart && fits(kind, &ran) {
            return (list, ran);
        }
    }
}

fn fits(kind: Kind, ran: &Ran) -> bool {
    let (report, busy) = (ran.compiled.report, !ran.compiled.ops.is_empty());
    match kind {
        Kind::Plain => busy && !ran.seen.angled,
        Kind::Reordered => busy && report[word::ORDERING] != ordering::IDENTITY,
        Kind::Dropped => busy && report[word::INTERACTIONS] > 0,
        Kind::Refused => !ran.accepted(),
    }
}

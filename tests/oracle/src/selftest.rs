//! Checks of the driver itself: the two module trees (the original as it stands,
//! and its text with the access module) agree in everything on random lists, and
//! the tree `given` in their items; the plain search tells the row in which the
//! original's Pfaffian stops; a list's text reads back, and a known tape comes out
//! right.

use crate::families::FAMILIES;
use crate::list::{parse_many, List, DROP, RELABEL};
use crate::rng::Rng;
use crate::state_lists::stops;
use crate::state_text;
use crate::tape::tape;
use original::access::detect as detect_access;
use original::access::state::{self as state_access, access};
use original::engines::gaussian::detect;
use original::engines::gaussian::state::GaussianState;
use original::given;

/// What was checked.
#[derive(Default)]
pub struct Outcome {
    pub compared: usize,
    pub trees_differ: usize,
    pub texts_differ: usize,
}

/// Checks `count` random lists of each family.
pub fn selftest(seed: u64, count: usize) -> Outcome {
    let mut rng = Rng::new(seed);
    let mut out = Outcome::default();
    for (_, family) in FAMILIES {
        for _ in 0..count {
            let list = family(&mut rng.split());
            out.compared += 1;
            let same = plain(&list) == with_access(&list) && same_items(&list);
            out.trees_differ += !same as usize;
            out.texts_differ += !reads_back(&list) as usize;
        }
    }
    out
}

/// So many random calls beside the original with a note where `pfaffian` stops: how many, how many of them stop, how many differ.
pub fn rows(seed: u64, count: usize) -> [usize; 3] {
    stops::traced(&mut Rng::new(seed), count)
}

/// Whether `fuse` gives the same in the tree `given`.
fn same_items(list: &List) -> bool {
    let relabel = list.has(RELABEL);
    let items = detect_access::access::fused(&list.circuit(), list.tol, relabel);
    let given = given::access::fused(&list.given_circuit(), list.tol, relabel);
    format!("{items:?}") == format!("{given:?}")
}

/// Whether the text of a list gives a list of the same text.
fn reads_back(list: &List) -> bool {
    let text = list.to_string();
    parse_many(&text).is_ok_and(|lists| lists.len() == 1 && lists[0].to_string() == text)
}

/// A flip, then an iswap, on two qubits: the tape that the scope writes out.
pub fn tape_is_right() -> bool {
    let list = parse_many("2 3 0000000000000000 1073741824\nX 0\nISwap 0 1").expect("a list");
    let head = [0x51, 0x48, 2, 3, 0, 0, 0, 0, 0, 0, 0, 0, 0, 0, 0, 0x40, 0, 0, 0, 0];
    let gates = [0x51, 0x47, 2, 0, 0x51, 0x47, 0x13, 0, 1];
    tape(&list[0]) == Ok([&head[..], &gates[..]].concat())
}

/// Program and state of a run, as debug texts without the time taken; m and d by the words of their bits.
type Seen = (String, Result<String, String>, Vec<u64>);

fn plain(list: &List) -> Seen {
    let options = list.options();
    let mut program = detect::compile(&list.circuit(), &options.detect);
    program.report.secs = 0.0;
    let state = GaussianState::evolve(&program, &options);
    let words = state.as_ref().map_or(vec![], |s| {
        let (m, d) = state_text::parts(s);
        m.iter().chain(&d).map(|x| x.to_bits()).collect()
    });
    (format!("{program:?}"), texts(state), words)
}

fn with_access(list: &List) -> Seen {
    let plain = list.options();
    let detect = detect_access::DetectOptions {
        tol: plain.detect.tol,
        relabel_swaps: plain.detect.relabel_swaps,
        reorder: plain.detect.reorder,
    };
    let interactions = match list.has(DROP) {
        true => state_access::InteractionPolicy::Drop,
        false => state_access::InteractionPolicy::Refuse,
    };
    let max_bytes = plain.max_bytes;
    let options = state_access::GaussianOptions { detect, interactions, max_bytes };
    let mut program = detect_access::compile(&list.circuit(), &detect);
    program.report.secs = 0.0;
    let state = state_access::GaussianState::evolve(&program, &options);
    let words = state
        .as_ref()
        .map_or(vec![], |s| access::m(s).iter().chain(access::d(s)).map(|x| x.to_bits()).collect());
    (format!("{program:?}"), texts(state), words)
}

fn texts<S: std::fmt::Debug, E: std::fmt::Debug>(r: Result<S, E>) -> Result<String, String> {
    r.map(|s| format!("{s:?}")).map_err(|e| format!("{e:?}"))
}

//! The stored lists of tapes and the items that the original's `fuse` makes of
//! them: words of 8 bytes, little endian. A record is a tag, the length of the
//! tape, how many words follow in all, the tape, and the answer; tag 0 ends the
//! list. docs/TESTING.md says more.

mod ties;

use crate::bits::word;
use crate::families;
use crate::list::{List, RELABEL};
use crate::records::{Records, FULL};
use crate::rng::Rng;
use crate::tape::{entries, header, record, tape};
use crate::traced::traced;
use original::access::detect::access::fused;
use original::gate::Gate;
use original::items::{Fused, Item, Kind};

/// A tape of which items are compared in every bit, and one of which kinds and wires are: tapes with
/// a cut that passed an off-diagonal test.
const EXACT: u64 = 1;
const ANGLED: u64 = 2;

/// The gates and qubits of a tape together at most.
const ROOM: usize = 128;

/// The tolerance of the tapes made here.
const TOL: f64 = 1e-10;

/// Adds a list with its tape; nothing if the two engines may differ there, if it is of the other
/// tag, or if there is no room.
fn add(out: &mut Records, tag: u64, list: &List, bytes: &[u8]) -> bool {
    let seen = traced(list);
    if seen.apart || (tag == ANGLED) != seen.angled || list.gates.len() + list.n > ROOM {
        return false;
    }
    let fused = fused(&list.circuit(), list.tol, list.has(RELABEL));
    put(out, tag, bytes, &fused, seen.tried, list.tol)
}

/// Adds a tape with its items and the number of tried cuts; nothing if there is no room.
fn put(out: &mut Records, tag: u64, bytes: &[u8], fused: &Fused, tried: usize, tol: f64) -> bool {
    let angled = tag == ANGLED;
    let mut body = Vec::from([fused.swaps, tried, usize::from(angled)].map(|x| x as u64));
    body.extend(fused.slot_of_qubit.iter().chain(&fused.content).map(|&x| x as u64));
    fused.items.iter().for_each(|it| add_item(&mut body, it, tol, angled));
    out.tape(FULL, tag, bytes, &body)
}

/// Adds a list with its own tape.
fn plain(out: &mut Records, tag: u64, list: &List) -> bool {
    tape(list).is_ok_and(|bytes| add(out, tag, list, &bytes))
}

/// An item: a word of its kind and wires, of a two-qubit item the residual, the matrix.
fn add_item(out: &mut Vec<u64>, it: &Item, tol: f64, angled: bool) {
    let head = |kind: usize, a: usize, b: usize| (kind + 256 * a + 65_536 * b) as u64;
    let mut floats = Vec::new();
    match *it {
        Item::One { w, ref u } => {
            out.push(head(4, w, 0));
            floats.extend(entries(u));
        }
        Item::Two { a, b, ref v, kind, g, residual } => {
            let kind = match kind {
                Kind::Match => 5,
                Kind::Diag => 6 + usize::from(g.abs() > tol),
                Kind::NonGaussian => 8,
            };
            out.push(head(kind, a, b));
            floats.push(residual);
            floats.extend(entries(v));
        }
        Item::Opaque => out.push(head(9, 0, 0)),
    }
    if !angled {
        out.extend(floats.iter().map(|&x| word(x)));
    }
}

/// The list of a name.
pub fn list(name: &str) -> Result<Vec<u8>, String> {
    let mut out = Records::default();
    match name {
        "cuts" => cuts(&mut out),
        "mixed" => mixed(&mut out),
        "angled" => random(&mut out, ANGLED, &["angles", "tails", "register", "opaque"]),
        "ties" => ties::add(&mut out),
        _ => return Err(format!("`{name}` is no list of items")),
    }
    Ok(out.bytes())
}

fn of(n: usize, flags: u8, gates: Vec<Gate>) -> List {
    List { n, flags, tol: TOL, limit: 0, gates, queries: vec![] }
}

/// Lists of random families as long as there is room: one of each family in turn.
fn random(out: &mut Records, tag: u64, names: &[&str]) {
    let mut rng = Rng::new(tag);
    for k in 0..400 {
        let family = families::find(names[k % names.len()]).expect("a family");
        plain(out, tag, &family(&mut rng.split()));
    }
}

/// Tails of about as many gates as two windows. A rotation by ZZ with Hadamards before it is Gaussian
/// only if they are undone after it: with the first p gates of the tail, or with more.
fn cuts(out: &mut Records) {
    let mut rng = Rng::new(3);
    for length in [7, 8, 9, 16, 17, 18, 19] {
        for p in [1, 7, 8, 9, 10, 11, length - 1, length] {
            let other = rng.pick(&[1, 2, 3, length]);
            let q = rng.between(1, other);
            if p <= length {
                let list = tailed(&mut rng, (length, p), (other, q));
                assert!(plain(out, EXACT, &list), "a tail of {length}, {p}");
            }
        }
    }
}

/// A block on two of four qubits, in either order, a tail on each of them, and blocks after these.
fn tailed(rng: &mut Rng, long: (usize, usize), other: (usize, usize)) -> List {
    let (a, b) = rng.pick(&[(0, 1), (1, 0)]);
    let (x, y) = rng.pick(&[(0, 1), (1, 0)]);
    let mut gates = vec![Gate::H(0), Gate::H(1)];
    gates.extend([Gate::Cnot(a, b), Gate::S(b), Gate::Cnot(a, b)]);
    gates.extend(tail(rng, x, long));
    gates.extend(tail(rng, y, other));
    gates.push(if rng.chance(1, 2) { Gate::ISwap(x, 2) } else { Gate::ISwapdg(2, x) });
    if rng.chance(1, 2) {
        gates.push(Gate::ISwap(y, 3));
    }
    of(4, rng.below(2) as u8, gates)
}

/// So many gates on q, none diagonal; those before gate p keep the X axis, and gate p takes it to Z.
fn tail(rng: &mut Rng, q: usize, (length, p): (usize, usize)) -> Vec<Gate> {
    let before = [Gate::X(q), Gate::Sx(q), Gate::Sxdg(q)];
    let after = [Gate::X(q), Gate::H(q), Gate::Y(q), Gate::Sx(q)];
    let gate = |k: usize| match k {
        _ if k < p => rng.pick(&before),
        _ if k == p => Gate::H(q),
        _ => rng.pick(&after),
    };
    (1..=length).map(gate).collect()
}

/// Small lists that are about one thing each, then random ones.
fn mixed(out: &mut Records) {
    for (list, bytes) in fixed() {
        add(out, EXACT, &list, &bytes);
        add(out, ANGLED, &list, &bytes);
    }
    random(out, EXACT, &["opaque", "matchgate", "tails", "register", "reorder"]);
}

/// The small lists with their tapes.
pub fn fixed() -> Vec<(List, Vec<u8>)> {
    let with_tape = |list: List| {
        let bytes = tape(&list).expect("a tape");
        (list, bytes)
    };
    swaps().into_iter().chain(small().into_iter().map(with_tape)).collect()
}

/// A Swap by its code, and by its matrix: on the tape the matrix is given, to the original it comes
/// as three flips.
fn swaps() -> Vec<(List, Vec<u8>)> {
    let three = |a, b| [Gate::Cnot(a, b), Gate::Cnot(b, a), Gate::Cnot(a, b)];
    let mut out = Vec::new();
    for flags in [0, RELABEL] {
        for (a, b) in [(0, 1), (1, 0)] {
            let first = [Gate::ISwap(1, 2), Gate::X(0), Gate::H(1)];
            let last = [Gate::H(0), Gate::ISwap(0, 2)];
            let coded = of(3, flags, [&first[..], &[Gate::Swap(a, b)], &last].concat());
            let flips = of(3, flags, [&first[..], &three(a, b), &last].concat());
            let (bytes, given) = (tape(&coded).expect("a tape"), given_swaps(&coded));
            out.extend([(coded, bytes), (flips, given)]);
        }
    }
    out
}

/// The tape of a list, with the matrix of each Swap in place of its code.
fn given_swaps(list: &List) -> Vec<u8> {
    let mut out = header(list).expect("a header");
    list.gates.iter().for_each(|g| out.extend(record(g, matches!(g, Gate::Swap(..)))));
    out
}

/// Reversed pairs, gates between, opaque blocks between, runs of diagonal gates.
fn small() -> Vec<List> {
    use Gate::*;
    let lists = [
        vec![],
        vec![Ccx(0, 1, 2)],
        vec![ISwap(0, 1), Sx(0), T(1), ISwap(1, 0)],
        vec![ISwap(1, 0), Sx(0), H(1), Cnot(0, 1), S(0), Cnot(1, 0)],
        vec![ISwap(0, 1), X(0), Y(1), Ccx(0, 1, 2), H(1), ISwap(0, 1), Sx(2)],
        vec![ISwap(0, 1), Ccx(2, 3, 1), ISwap(0, 1), H(0), Ccx(0, 2, 3), Y(2)],
        vec![
            ISwap(0, 1),
            S(1),
            T(1),
            X(1),
            Z(1),
            S(1),
            ISwap(1, 2),
            T(0),
            S(0),
            Tdg(0),
            H(0),
            T(0),
        ],
        vec![H(0), ISwap(0, 1), H(1), Sx(1), ISwap(1, 2), Sxdg(2), ISwap(2, 3), H(3), X(0)],
        vec![H(0), H(1), ISwap(0, 1), H(0), T(0), H(1), S(1), ISwap(2, 1), ISwap(0, 3), Y(3)],
        vec![
            S(0),
            ISwap(0, 1),
            H(1),
            ISwap(1, 2),
            ISwap(0, 1),
            H(0),
            Swap(0, 2),
            ISwap(0, 1),
            Sx(2),
        ],
    ];
    let with_flags = |gates: &Vec<Gate>| [0, RELABEL].map(|flags| of(4, flags, gates.clone()));
    lists.iter().flat_map(with_flags).collect()
}

//! The list `ties`: tapes with given matrices, for corners that no gate of the
//! original leads to, and corners that random lists miss. The items are those of
//! the tree `given`. Each tape is there for some faults of the trees `faulty`,
//! and each of these faults gives other items.

use super::{of, put, tail as cut_tail, tailed, EXACT, ROOM, TOL};
use crate::list::RELABEL;
use crate::records::Records;
use crate::rng::Rng;
use crate::tape::{coded, entries, header, record, GIVEN2, GIVEN4};
use original::gate::{Gate as Named, Mat2, Mat4};
use original::given::access::{fused, trace};
use original::given::DetectOptions;
use original::given_gates::{Circuit, Gate};
use original::{faulty, Complex64};

type Faults = &'static [&'static str];

/// The faults by which one of two equal scores is taken for the other.
const EQUAL: Faults = &["last_of_equals", "second_tail_outside"];

/// Those of the window.
const SEVEN: Faults = &["window_of_7"];
const NINE: Faults = &["window_of_9", "every_cut_tried"];
const EVERY: Faults = &["every_cut_tried"];

/// Gates on n qubits, and the faults that they must show.
struct Tie {
    n: usize,
    flags: u8,
    gates: Vec<Gate>,
    shows: Faults,
}

pub fn add(out: &mut Records) {
    let mut rng = Rng::new(5);
    let scores = [turned(), near(), grown(), fewest()];
    let others = [edges(), long(&mut rng), joins(&mut rng), opaque(&mut rng)];
    for tie in scores.iter().chain(&others).flatten() {
        let circuit = Circuit { num_qubits: tie.n, list: tie.gates.clone() };
        let relabel_swaps = tie.flags & RELABEL != 0;
        let items = fused(&circuit, TOL, relabel_swaps);
        let text = format!("{items:?}");
        for name in tie.shows {
            let fuse = faulty::ALL.iter().find(|row| row.0 == *name).expect("a fault").1;
            let other = format!("{:?}", fuse(&circuit, TOL, relabel_swaps));
            assert_ne!(text, other, "{name} on {:?}", tie.gates);
        }
        let seen = trace(&circuit, &DetectOptions { tol: TOL, relabel_swaps, reorder: false });
        assert!(!seen.angled && tie.gates.len() + tie.n <= ROOM, "{:?}", tie.gates);
        assert!(put(out, EXACT, &tape(tie), &items, seen.tried, TOL), "room for a tie");
    }
}

fn tape(tie: &Tie) -> Vec<u8> {
    let mut out = header(&of(tie.n, tie.flags, vec![])).expect("a header");
    for g in &tie.gates {
        out.extend(match *g {
            Gate::One(q, ref m) => coded(GIVEN2, &[q], &entries(m)),
            Gate::Two(a, b, ref m) => coded(GIVEN4, &[a, b], &entries(m)),
            _ => record(&g.named().expect("a name"), false),
        });
    }
    out
}

// ---- scores

/// A product of two vectors: the second's entries are all there, so the block is never diagonal. It is
/// Gaussian exactly if the first vector has a parity, or near to that. The first is given as the matrix
/// f, on which a gate of the first slot works from the left and one of the second from the right.
fn core(f: [[f64; 2]; 2]) -> Mat4 {
    let other = [1.0, 0.5, -0.25, 0.5];
    let entry = |i: usize, j: usize| Complex64::new(f[i / 2][i % 2] * other[j], 0.0);
    std::array::from_fn(|i| std::array::from_fn(|j| entry(i, j)))
}

fn real(m: [[f64; 2]; 2]) -> Mat2 {
    m.map(|row| row.map(|x| Complex64::new(x, 0.0)))
}

/// Its square is twice the identity.
const TURN: [[f64; 2]; 2] = [[1.0, 1.0], [1.0, -1.0]];

/// A tail of so many flips, but that at some places, counted from 1, a `TURN` stands.
fn tail(q: usize, length: usize, turns: &[usize]) -> Vec<Gate> {
    let gate = |k: usize| match turns.contains(&k) {
        true => Gate::One(q, real(TURN)),
        false => Named::X(q).into(),
    };
    (1..=length).map(gate).collect()
}

/// A block on 0 and 1 with a tail on each; with relabelling the other way round, and blocks follow.
fn block(flags: u8, f: [[f64; 2]; 2], tails: [Vec<Gate>; 2], shows: Faults) -> Tie {
    let turned = flags & RELABEL != 0;
    let (a, b) = if turned { (1, 0) } else { (0, 1) };
    let mut gates = vec![Gate::Two(a, b, core(f))];
    gates.extend(tails.concat());
    if turned {
        gates.extend([Named::ISwap(a, 2), Named::ISwapdg(3, b)].map(Gate::from));
    }
    Tie { n: 4, flags, gates, shows }
}

/// Both ways.
fn both(f: [[f64; 2]; 2], tails: [Vec<Gate>; 2], shows: Faults) -> [Tie; 2] {
    [0, RELABEL].map(|flags| block(flags, f, tails.clone(), shows))
}

/// One turn on either slot makes the block Gaussian, and two or none do not: two scores are equal.
fn turned() -> Vec<Tie> {
    let tails = |length, place| [0, 1].map(|q| tail(q, length, &[place]));
    let tie = |(length, place)| both(TURN, tails(length, place), EQUAL);
    [(1, 1), (2, 2), (3, 1), (9, 5)].map(tie).into_iter().flatten().collect()
}

/// The same, but that the parity is only near, equally on either slot: rank 2 with equal residuals.
fn near() -> Vec<Tie> {
    let f = |e: f64| [[1.0, 1.0 + 0.5 * e], [1.0, 0.5 * e - 1.0]];
    let tie = |(e, length)| both(f(e), [0, 1].map(|q| tail(q, length, &[1])), EQUAL);
    [(0.5, 1), (0.0625, 1), (-0.25, 2)].map(tie).into_iter().flatten().collect()
}

/// So many gates are needed, on whichever slot: one score more is equal.
fn grown() -> Vec<Tie> {
    let grow = |q, length| vec![Gate::One(q, real([[0.0, 1.0], [1.0, 1.0]])); length];
    let tie = |(gates, f)| both(f, [grow(0, gates), grow(1, gates + 1)], EQUAL);
    let two = (2, [[1.0, -0.5], [-0.5, 0.5]]);
    let three = (3, [[-1.5, 1.0], [1.0, -0.5]]);
    [two, three].map(tie).into_iter().flatten().collect()
}

/// A later cut takes fewer gates.
fn fewest() -> Vec<Tie> {
    let tie = |(length, first, second)| {
        let tails = [tail(0, length, &[first]), tail(1, length, &[second])];
        block(0, TURN, tails, &["taken_uncounted"])
    };
    [(3, 1, 2), (4, 2, 3), (24, 7, 8)].map(tie).into()
}

// ---- long tails

/// Only one cut of a long tail serves, or one of each tail: at the edge of a window, one beyond it, or
/// in the middle.
fn edges() -> Vec<Tie> {
    let tie = |(length, place, shows)| {
        let one = [tail(0, length, &[place, place + 1]), tail(1, 3, &[])];
        let each = [0, 1].map(|q| tail(q, length, &[place, place + 1]));
        [block(0, TURN, one, shows), block(RELABEL, TURN, each, shows)]
    };
    [
        (24, 8, SEVEN),
        (24, 9, NINE),
        (27, 18, NINE),
        (27, 19, SEVEN),
        (25, 12, EVERY),
        (40, 8, SEVEN),
    ]
    .map(tie)
    .into_iter()
    .flatten()
    .collect()
}

/// Tails of named gates, as in the list `cuts`.
fn long(rng: &mut Rng) -> Vec<Tie> {
    let mut tie = |(length, p, shows)| {
        let list = tailed(rng, (length, p), (24, 8));
        let gates = list.gates.into_iter().map(Gate::from).collect();
        Tie { n: list.n, flags: list.flags, gates, shows }
    };
    [(24, 8, SEVEN), (25, 17, SEVEN), (30, 9, NINE), (33, 24, NINE), (48, 40, SEVEN)]
        .map(&mut tie)
        .into()
}

// ---- joins and opaque blocks

/// Phases after each other between two gates on one pair: their product is taken gate by gate.
fn joins(rng: &mut Rng) -> Vec<Tie> {
    let mut tie = |k: usize| {
        let mut run = |q: usize| (0..5).map(|_| Named::Phase(q, rng.angle())).collect::<Vec<_>>();
        let (before, between, after) = (run(0), run(0), run(0));
        let mut gates = [&[Named::ISwap(0, 1), Named::H(0)][..], &before].concat();
        gates.extend([Named::Sx(1), [Named::ISwap(0, 1), Named::Cnot(1, 0)][k % 2], Named::H(0)]);
        gates.extend(between);
        gates.push(Named::ISwapdg(1, 0));
        gates.extend(after);
        gates.extend([Named::X(0), Named::ISwap(0, 2)]);
        let gates = gates.into_iter().map(Gate::from).collect();
        Tie { n: 3, flags: k as u8 / 2, gates, shows: &["runs_merged_in_joins"] }
    };
    (0..4).map(&mut tie).collect()
}

/// An opaque block takes the rest of a tail that was split: on its first, second or third slot, before
/// another block or as the last.
fn opaque(rng: &mut Rng) -> Vec<Tie> {
    let mut tie = |k: usize| {
        let mut gates = vec![Named::H(0), Named::H(1)];
        gates.extend([Named::Cnot(0, 1), Named::S(1), Named::Cnot(0, 1)]);
        gates.extend(cut_tail(rng, 0, ([5, 24][k % 2], 2)));
        gates.extend(cut_tail(rng, 1, (3, 1)));
        gates.push([Named::Ccx(0, 2, 3), Named::Ccx(2, 0, 3), Named::Ccx(3, 1, 0)][k % 3]);
        if k < 3 {
            gates.extend([Named::Sx(0), Named::ISwap(0, 2)]);
        }
        let gates = gates.into_iter().map(Gate::from).collect();
        Tie { n: 4, flags: k as u8 % 2, gates, shows: &["opaque_leaves_rest"] }
    };
    (0..6).map(&mut tie).collect()
}

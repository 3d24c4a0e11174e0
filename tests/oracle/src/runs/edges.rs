//! Document 01's edges of whole runs and of queries on their states, and every
//! refusal of a run. The number that the paper gives stands beside each tape and
//! each query; where the original can be asked, it is asserted to agree. The
//! numbers 1 to 10, 15, 21 and 22 and all places are the paper's own: the
//! original has no tape, no largest n, no lent slices, and takes any draw.

use super::{add as add_record, add_run, asked, exactly, Lent, Ran, TOL};
use crate::bits::word;
use crate::compiled::edges::refused_tapes;
use crate::families::pieces::quarter;
use crate::layout::{
    measure, table, word as at, work_floats, work_marks, HEADER_BYTES, MAX_GATES, MAX_QUBITS,
    OP_PLACES,
};
use crate::list::{List, DROP, RELABEL, REORDER};
use crate::query::Query;
use crate::records::Records;
use crate::rng::Rng;
use crate::run::run;
use crate::tape::tape;
use original::gate::Gate;

const BOTH: u8 = RELABEL | REORDER;

/// What the paper says of a query.
#[derive(Clone, Copy)]
enum Says {
    Value(f64),
    /// Zero, where the Pfaffian stops in this row.
    Stopped(usize),
    Refused(u64, u64),
    /// An answer is given: shots, or a value that is rounded.
    Given,
}

/// A list, the number of its refusal or 0, and what is asked of its state.
struct Edge {
    list: List,
    number: u64,
    says: Vec<Says>,
}

pub fn add(out: &mut Records) {
    let mut met = Vec::new();
    for edge in edges() {
        let ran = Ran::of(&edge.list);
        assert_eq!(ran.compiled.refused, [edge.number, 0], "{}", edge.list);
        if ran.accepted() {
            check(&edge, &ran);
        }
        assert!(add_run(out, &bytes(&edge.list), &edge.list, &ran), "room for an edge");
        met.push(edge.number);
    }
    labels(out);
    enough(out);
    apart(out);
    tables();
    for refusal in by_the_paper() {
        let ran = Ran::refused(refusal.number, refusal.place);
        let room = add_record(out, &refusal.tape, refusal.lent, refusal.zeros, &ran, &[]);
        assert!(room, "room for a refusal");
        met.push(refusal.number);
    }
    assert!((1..=15).all(|number| met.contains(&number)), "every refusal of a run");
}

fn bytes(list: &List) -> Vec<u8> {
    tape(list).expect("a tape")
}

/// The answers beside the paper's.
fn check(edge: &Edge, ran: &Ran) {
    let answers = asked::all(&edge.list, ran);
    assert_eq!(answers.len(), edge.says.len());
    for ((query, asked), says) in edge.list.queries.iter().zip(&answers).zip(&edge.says) {
        let right = match *says {
            Says::Value(x) => asked.is([0, 0, word(x)], None),
            Says::Stopped(row) => asked.is([0, 0, 0], Some(row)),
            Says::Refused(number, place) => asked.is([number, place, 0], None),
            Says::Given => asked.answer[0] == 0,
        };
        assert!(right, "{query} of\n{}", edge.list);
    }
}

fn of(n: usize, flags: u8, gates: &[Gate]) -> List {
    List { n, flags, tol: TOL, limit: 1 << 30, gates: gates.to_vec(), queries: vec![] }
}

/// A list that is accepted.
fn yes(list: List, asks: Vec<(Query, Says)>) -> Edge {
    let (queries, says) = asks.into_iter().unzip();
    Edge { list: List { queries, ..list }, number: 0, says }
}

/// A list that is refused.
fn no(number: u64, list: List) -> Edge {
    Edge { list, number, says: vec![] }
}

/// Every Z.
fn zs(values: &[f64]) -> Vec<(Query, Says)> {
    values.iter().enumerate().map(|(q, &x)| (Query::z(q), Says::Value(x))).collect()
}

fn edges() -> Vec<Edge> {
    [small(), questions(), stops(), order_of_questions(), large()].into_iter().flatten().collect()
}

/// Products, marginals, basis indices and draws.
fn questions() -> Vec<Edge> {
    use Query::*;
    use Says::*;
    let largest = f64::from_bits(1.0f64.to_bits() - 1);
    let flipped = vec![
        (Query::z(0), Value(-1.0)),
        (Product(vec![]), Value(1.0)),
        (Product(vec![0, 0]), Value(1.0)),
        (Product(vec![0, 0, 0]), Value(-1.0)),
        (Product(vec![0, 1]), Refused(19, 1)),
        // bits from n upward are ignored
        (Probability(!2), Value(1.0)),
        (Probability(!1), Value(0.0)),
        (Probability(1), Value(1.0)),
        (Sample(1, vec![0.0]), Given),
        (Sample(1, vec![-0.0]), Given),
        (Sample(2, vec![largest, 0.5]), Given),
        (Sample(1, vec![1.0]), Refused(22, 0)),
        (Sample(3, vec![0.0, 0.5, 1.0]), Refused(22, 2)),
        (Sample(1, vec![0.5, 1.0]), Given),
        (Sample(2, vec![0.5]), Refused(21, 0)),
        (Query::z(1), Refused(19, 0)),
    ];
    let contradicting = vec![
        (marginal(&[0, 0], &[0, 1]), Value(0.0)),
        (marginal(&[0, 0, 9], &[0, 1, 0]), Value(0.0)),
        (marginal(&[0, 9, 0], &[0, 0, 1]), Refused(19, 1)),
        (marginal(&[0, 0], &[0, 0]), Value(1.0)),
        (marginal(&[1, 0, 1], &[1, 0, 1]), Value(1.0)),
        (marginal(&[], &[]), Value(1.0)),
        (marginal(&[0, 1], &[0]), Refused(18, 0)),
        (marginal(&[1], &[0]), Stopped(0)),
        (marginal(&[0, 1], &[0, 0]), Stopped(2)),
        (marginal(&[1, 0], &[0, 1]), Stopped(0)),
        (Product(vec![0, 1, 2]), Refused(19, 2)),
        (Product(vec![0, 2]), Refused(19, 1)),
        (Product(vec![1, 0]), Value(-1.0)),
    ];
    let none = vec![
        (Product(vec![]), Value(1.0)),
        (marginal(&[], &[]), Value(1.0)),
        (Probability(u128::MAX), Value(1.0)),
        (Sample(2, vec![]), Given),
    ];
    vec![
        yes(of(1, BOTH, &[Gate::X(0)]), flipped),
        yes(of(2, BOTH, &[Gate::X(1)]), contradicting),
        yes(of(0, BOTH, &[]), none),
    ]
}

fn marginal(qs: &[usize], bits: &[u8]) -> Query {
    Query::Marginal(qs.to_vec(), bits.iter().map(|&b| b == 1).collect())
}

/// Two pairs of qubits that agree, each by a quarter turn: within a pair every Z is zero and the product of both is not, so that a pair that
/// is listed whole lets the search go on by four rows.
fn stops() -> Vec<Edge> {
    use Query::*;
    use Says::*;
    let asks = vec![
        (Query::z(0), Stopped(0)),
        (Query::z(3), Stopped(0)),
        (Product(vec![0, 1]), Value(1.0)),
        (Product(vec![2, 1]), Stopped(0)),
        (Product(vec![2, 1, 0]), Stopped(4)),
        (Product(vec![3, 0, 2]), Stopped(0)),
        (Product(vec![0, 3, 1, 2]), Value(1.0)),
        (marginal(&[2], &[1]), Value(0.5)),
        (marginal(&[0, 1], &[0, 1]), Stopped(2)),
        (marginal(&[0, 2], &[0, 1]), Value(0.25)),
        (marginal(&[3, 2, 1, 0], &[0, 1, 1, 1]), Stopped(6)),
        (marginal(&[3, 2, 1, 0], &[1, 1, 0, 0]), Value(0.25)),
        (marginal(&[0, 1, 0], &[0, 1, 1]), Value(0.0)),
        (Probability(0b0111), Value(0.0)),
        (Probability(0b0011), Value(0.25)),
    ];
    vec![yes(of(4, 0, &[quarter(0, 1), quarter(2, 3)].concat()), asks)]
}

/// Tapes of a few gates.
fn small() -> Vec<Edge> {
    use Gate::*;
    let example = List { tol: 0.0, ..of(2, BOTH, &[X(0), ISwap(0, 1)]) };
    let limited = |limit: u64| List { limit, ..of(2, BOTH, &[X(1)]) };
    vec![
        yes(example, zs(&[1.0, -1.0])),
        yes(of(1, BOTH, &[]), zs(&[1.0])),
        yes(limited(128), zs(&[1.0, -1.0])),
        no(14, limited(127)),
        yes(of(3, BOTH, &[X(0), ISwap(0, 2)]), zs(&[1.0, 1.0, -1.0])),
        no(11, of(3, RELABEL, &[ISwap(0, 2)])),
        no(11, of(3, BOTH, &[ISwap(0, 1), ISwap(1, 2), ISwap(0, 2)])),
        no(12, of(1, BOTH, &[H(0)])),
        no(12, of(2, BOTH, &[Cnot(0, 1)])),
        no(12, of(3, BOTH, &[Ccx(0, 1, 2)])),
        yes(of(2, BOTH, &[X(0), Cz(0, 1)]), zs(&[-1.0, 1.0])),
        yes(of(2, RELABEL, &[Cz(0, 1)]), zs(&[1.0, 1.0])),
        no(13, of(2, REORDER, &[Cz(0, 1)])),
        no(13, of(2, 0, &[Cz(0, 1)])),
        yes(of(2, DROP, &[Cz(0, 1)]), zs(&[1.0, 1.0])),
        yes(of(2, RELABEL, &[X(1), Swap(0, 1)]), zs(&[-1.0, 1.0])),
        no(12, of(2, REORDER, &[Swap(0, 1)])),
    ]
}

/// A tape that two questions refuse is refused by the first.
fn order_of_questions() -> Vec<Edge> {
    use Gate::*;
    let short = |list: List| List { limit: 1, ..list };
    vec![
        no(12, of(3, RELABEL, &[ISwap(0, 2), H(1)])),
        no(12, of(3, 0, &[Cz(0, 1), H(2)])),
        no(11, short(of(3, RELABEL, &[ISwap(0, 2)]))),
        no(12, short(of(1, BOTH, &[H(0)]))),
        no(13, short(of(2, 0, &[Cz(0, 1)]))),
        no(14, short(of(2, DROP, &[Cz(0, 1)]))),
    ]
}

/// 128 qubits, 1,024 gates, and both.
fn large() -> Vec<Edge> {
    use Gate::*;
    let wide = of(MAX_QUBITS, BOTH, &[ISwap(0, 127), X(127), ISwap(126, 127), Swap(3, 64), X(64)]);
    let ones: u128 = 1 << 126 | 1 << 64;
    let all: Vec<usize> = (0..MAX_QUBITS).collect();
    let draws: Vec<f64> = all.iter().map(|&k| (k % 8) as f64 / 8.0).collect();
    let asks = vec![
        (Query::z(126), Says::Value(-1.0)),
        (Query::z(127), Says::Value(1.0)),
        (Query::z(128), Says::Refused(19, 0)),
        (Query::Product(all), Says::Value(1.0)),
        (Query::Probability(ones), Says::Value(1.0)),
        (Query::Probability(ones | 1), Says::Value(0.0)),
        (Query::Sample(1, draws), Says::Given),
    ];
    let (busy, bits) = busy();
    let asks_busy = vec![
        (Query::z(0), Says::Value(if bits & 1 == 1 { -1.0 } else { 1.0 })),
        (Query::Probability(bits), Says::Value(1.0)),
    ];
    vec![yes(wide, asks), yes(of(1, BOTH, &[X(0); MAX_GATES]), zs(&[1.0])), yes(busy, asks_busy)]
}

/// The largest tape: 1,024 flips and exchanges of neighbours on 128 qubits, and the register's bits.
fn busy() -> (List, u128) {
    let rng = &mut Rng::new(4);
    let (mut gates, mut bits) = (Vec::new(), 0u128);
    for _ in 0..MAX_GATES {
        let q = rng.below(MAX_QUBITS - 1);
        if rng.chance(1, 4) {
            gates.push(Gate::X(q));
            bits ^= 1 << q;
        } else {
            gates.push(Gate::ISwap(q, q + 1));
            let (x, y) = (bits >> q & 1, bits >> (q + 1) & 1);
            bits ^= (x ^ y) << q | (x ^ y) << (q + 1);
        }
    }
    (of(MAX_QUBITS, 0, &gates), bits)
}

/// Order, ordering and mode table, as the paper has them.
fn tables() {
    let words = |list: &List| {
        let c = Ran::of(list).compiled;
        let table = |which: usize| c.tables[which].clone();
        let fraction = c.measures[measure::FRACTION];
        (c.report[at::ORDERING], table(table::ORDER), table(table::MODES), fraction)
    };
    let iswap = words(&of(3, BOTH, &[Gate::ISwap(0, 2)]));
    assert_eq!((iswap.0, iswap.1), (1, vec![0, 2, 1]), "by paths");
    assert_eq!(words(&of(2, RELABEL, &[Gate::Cz(0, 1)])).2, [1, 0]);
    assert_eq!(words(&of(1, BOTH, &[])).3, 1.0, "the fraction of no blocks");
}

/// Labels after the header, between gates and at the end change nothing.
fn labels(out: &mut Records) {
    let list = of(2, REORDER, &[Gate::X(1), Gate::ISwap(0, 1)]);
    let whole = bytes(&list);
    let (head, gates) = whole.split_at(HEADER_BYTES);
    let (flip, last) = gates.split_at(4);
    let (label, none) = ([&[0x51, 0x4c, 2][..], b"hi"].concat(), [0x51, 0x4c, 0]);
    let tape = [head, &label, flip, &none, last, &label].concat();
    let edge = yes(list, zs(&[-1.0, 1.0]));
    let ran = Ran::of(&edge.list);
    check(&edge, &ran);
    assert!(add_run(out, &tape, &edge.list, &ran), "room for labels");
}

/// Slices that are exactly long enough.
fn enough(out: &mut Records) {
    let list = of(3, 0, &[Gate::X(0), Gate::ISwap(0, 1), Gate::ISwap(1, 2)]);
    let ran = Ran::of(&list);
    let lent = exactly(list.gates.len(), list.n, &ran);
    let room = add_record(out, &bytes(&list), lent, [lent[0], lent[1]], &ran, &[]);
    assert!(room, "room for slices");
}

/// Diagonal blocks with a tolerance under 1e-12, where the original's angles give another class than
/// the paper's rule: it refuses the first tape by 13 and accepts the second.
fn apart(out: &mut Records) {
    use Gate::*;
    let exactly = |list: List| List { tol: 0.0, ..list };
    let usual = of(2, RELABEL, &[Phase(0, 3.0), ISwap(0, 1), Cz(0, 1)]);
    let asks = [0, 1].map(|q| (Query::z(q), Says::Given));
    let first = yes(exactly(usual.clone()), asks.to_vec());
    let ran = Ran::of(&usual);
    check(&first, &ran);
    assert!(add_run(out, &bytes(&first.list), &first.list, &ran), "room for the first");
    let second = exactly(of(2, 0, &[Cz(0, 1), Rz(1, 0.3), Phase(0, 2.0), Cz(0, 1)]));
    let refused = Ran { places: 3 * OP_PLACES, ..Ran::refused(13, 0) };
    assert!(add_run(out, &bytes(&second), &second, &refused), "room for the second");
    let original = [&first.list, &second].map(|list| run(list).state.err());
    assert_eq!(original, [Some(13), None]);
}

/// A tape with slices and a refusal that the paper alone says.
struct Refusal {
    tape: Vec<u8>,
    lent: Lent,
    /// How many places of work are zero afterwards.
    zeros: [usize; 2],
    number: u64,
    place: usize,
}

fn by_the_paper() -> Vec<Refusal> {
    let of_tape = |(tape, number, place)| {
        let (lent, zeros) = ([3, 2, 4, 5], [0, 0]);
        Refusal { tape, lent, zeros, number, place }
    };
    refused_tapes().into_iter().map(of_tape).chain(short_slices()).collect()
}

/// Questions 9, 10 and 15: each slice one place short, and those after it empty too. Where a block is
/// bad there are no operations, so that 10 passes and 11 is given; and 14 comes before 15.
fn short_slices() -> Vec<Refusal> {
    use Gate::*;
    let gates = [X(0), ISwap(0, 1), ISwap(1, 2)];
    let list = of(3, 0, &gates);
    let enough = exactly(gates.len(), list.n, &Ran::of(&list));
    let work = |list: &List| {
        let (g, n) = (list.gates.len(), list.n);
        [work_floats(g, n), work_marks(g, n)]
    };
    let refusal = |list: &List, lent: Lent, number: u64| {
        let zeros = if number == 9 { [0, 0] } else { work(list) };
        Refusal { tape: bytes(list), lent, zeros, number, place: 0 }
    };
    let mut out = Vec::new();
    for (k, number) in [9, 9, 10, 15].into_iter().enumerate() {
        let mut short = enough;
        short[k] -= 1;
        out.push(refusal(&list, short, number));
        short[k + 1..].fill(0);
        out.push(refusal(&list, short, number));
    }
    let apart = of(3, RELABEL, &[X(1), ISwap(0, 2)]);
    let limited = List { limit: 127, ..of(2, 0, &[]) };
    for (list, number) in [(apart, 11), (limited, 14)] {
        let [floats, marks] = work(&list);
        out.push(refusal(&list, [floats, marks, 0, 0], number));
    }
    out
}

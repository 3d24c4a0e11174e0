//! What `compile` must answer to a list, in plain numbers: the report and the operations of the
//! unmodified original. On angled lists the rotations and units of diagonal blocks are those of
//! document 01's rule, which are asserted to be the original's within 1e-9.

use crate::bits::word;
use crate::classify::rule;
use crate::layout::{kind, ordering, word as at, MEASURES, OP_PLACES, REPORT_WORDS, TABLES};
use crate::list::List;
use crate::run::path_starts;
use crate::traced::{traced, Traced};
use original::access::detect::access::{diag_phases, fuse, Item, Kind};
use original::access::detect::DetectOptions;
use original::engines::gaussian::detect::{
    compile, GaussOp, GaussianProgram, GaussianReport, Ordering,
};
use original::gate::Mat4;
use original::Complex64;

/// An operation: kind, mode, 16 numbers.
pub type Places = [f64; OP_PLACES];

/// Largest difference between the original's rotations and the rule's.
const CLOSE: f64 = 1e-9;

/// An answer; a refusal's numbers are zero.
#[derive(Clone, Debug, Default)]
pub struct Compiled {
    /// Number and place of a refusal, or zeros.
    pub refused: [u64; 2],
    pub report: [u64; REPORT_WORDS],
    /// Fraction and maximal residual.
    pub measures: [f64; MEASURES],
    /// The wire on each mode, whether a path starts there, the mode of each qubit; n entries each.
    pub tables: [Vec<u64>; TABLES],
    /// The operations, one after the other.
    pub ops: Vec<f64>,
}

impl Compiled {
    /// All of it as words.
    pub fn words(&self) -> Vec<u64> {
        let mut out: Vec<u64> = self.refused.into_iter().chain(self.report).collect();
        out.extend(self.measures.map(word));
        self.tables.iter().for_each(|table| out.extend(table));
        out.extend(self.ops.iter().map(|&x| word(x)));
        out
    }
}

/// The answer to a list, where work and operation slice suffice.
pub fn answer(list: &List) -> (Compiled, Traced) {
    let program = compile(&list.circuit(), &list.options().detect);
    let seen = traced(list);
    let ops = match seen.angled {
        true => by_items(list, &program),
        false => program.ops.iter().map(places).collect(),
    };
    let r = &program.report;
    let wide = |xs: &[usize]| xs.iter().map(|&x| x as u64).collect();
    let compiled = Compiled {
        refused: [0; 2],
        report: report(r, ops.len(), seen.angled),
        measures: [r.gaussian_fraction, r.max_residual],
        tables: [wide(&r.order), wide(&path_starts(r)), wide(&r.mode_of_qubit)],
        ops: ops.concat(),
    };
    (compiled, seen)
}

fn report(r: &GaussianReport, operations: usize, angled: bool) -> [u64; REPORT_WORDS] {
    let mut words = [0; REPORT_WORDS];
    for (place, count) in [
        (at::N, r.n),
        (at::BLOCKS, r.blocks),
        (at::TWO, r.blocks_2q),
        (at::GAUSSIAN, r.gaussian_blocks),
        (at::BAD, r.non_gaussian),
        (at::NONADJACENT, r.nonadjacent),
        (at::INTERACTIONS, r.interactions.len()),
        (at::SWAPS, r.swaps_relabelled),
        (at::OPERATIONS, operations),
    ] {
        words[place] = count as u64;
    }
    for (place, says) in [
        (at::CONSERVING, r.number_conserving),
        (at::EXACT, r.exact),
        (at::FREE, r.free),
        (at::ANGLED, angled),
    ] {
        words[place] = says.into();
    }
    words[at::ORDERING] = match r.ordering.expect("compile always names an ordering") {
        Ordering::Identity => ordering::IDENTITY,
        Ordering::Paths => ordering::PATHS,
        Ordering::GreedyCover => ordering::GREEDY,
    };
    words
}

/// Kind, mode, and the numbers that follow.
pub fn filled(kind: f64, mode: usize, numbers: &[f64]) -> Places {
    let mut out = [0.0; OP_PLACES];
    (out[0], out[1]) = (kind, mode as f64);
    out[2..2 + numbers.len()].copy_from_slice(numbers);
    out
}

/// The places of an operation of an unangled list, which has no interaction.
fn places(op: &GaussOp) -> Places {
    match op {
        GaussOp::One { mode, q } => filled(kind::ONE, *mode, q.as_flattened()),
        GaussOp::Two { mode, q } => filled(kind::TWO, *mode, q.as_flattened()),
        GaussOp::Interaction(_) => unreachable!("a diagonal block in a list that is not angled"),
    }
}

/// The operations item by item, so that those of diagonal blocks can be told from the others.
fn by_items(list: &List, program: &GaussianProgram) -> Vec<Places> {
    if !program.report.free {
        return vec![];
    }
    let plain = list.options().detect;
    let (tol, relabel_swaps, reorder) = (plain.tol, plain.relabel_swaps, plain.reorder);
    let items = fuse(&list.circuit(), &DetectOptions { tol, relabel_swaps, reorder }).items;
    let mut theirs = program.ops.iter();
    let mut out = Vec::new();
    for (block, item) in items.iter().enumerate() {
        match item {
            Item::Two { a, b, v, kind: Kind::Diag, g, .. } => {
                let pos = |w: &usize| {
                    program.report.order.iter().position(|x| x == w).expect("a mode for each wire")
                };
                let interacts = g.abs() > tol;
                out.extend(diagonal(&mut theirs, v, [pos(a), pos(b)], interacts.then_some(block)));
            }
            _ => out.push(places(theirs.next().expect("an operation for each item"))),
        }
    }
    assert!(theirs.next().is_none(), "no operation is left over");
    out
}

/// The operations of a diagonal block on two modes by the rule; those of the original are beside them.
fn diagonal<'a>(
    theirs: &mut impl Iterator<Item = &'a GaussOp>,
    v: &Mat4,
    modes: [usize; 2],
    interacts: Option<usize>,
) -> Vec<Places> {
    let [p_a, p_b, w] = rule::phases(rule::diagonal(v));
    let (first, second, _) = diag_phases(v);
    let mut out = Vec::new();
    for (mode, p, angle) in [(modes[0], p_a, first), (modes[1], p_b, second)] {
        let q = rule::rotation(p);
        let q_or_none = q.unwrap_or([1.0, 0.0, 0.0, 1.0]);
        let near = match (angle != 0.0).then(|| theirs.next()).flatten() {
            Some(GaussOp::One { mode: k, q }) => *k == mode && close(q.as_flattened(), &q_or_none),
            Some(_) => false,
            None => close(&[1.0, 0.0, 0.0, 1.0], &q_or_none),
        };
        assert!(near, "the rotation of {p}, {angle}");
        out.extend(q.map(|q| filled(kind::ONE, mode, &q)));
    }
    if let Some(block) = interacts {
        let unit = rule::unit(w);
        match theirs.next() {
            Some(GaussOp::Interaction(ip)) => {
                let g = Complex64::from_polar(1.0, ip.g);
                assert!(ip.block == block && <[usize; 2]>::from(ip.modes) == modes);
                assert!(close(&[g.re, g.im], &[unit.re, unit.im]), "the unit of {w}, {}", ip.g);
            }
            other => panic!("{other:?} in the place of an interaction"),
        }
        let numbers = [block as f64, modes[1] as f64, unit.re, unit.im];
        out.push(filled(kind::INTERACTION, modes[0], &numbers));
    }
    out
}

fn close(a: &[f64], b: &[f64]) -> bool {
    a.len() == b.len() && a.iter().zip(b).all(|(x, y)| (x - y).abs() <= CLOSE)
}

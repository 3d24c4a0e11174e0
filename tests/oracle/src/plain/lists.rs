//! Random lists of operations from the vacuum, good ones and some that are refused, by how the numbers of their maps are drawn.

use crate::families::pieces;
use crate::layout::{kind, OP_PLACES};
use crate::rng::Rng;
use crate::state_lists::op;
use original::access::detect::access as detect;
use original::gate::Gate;

/// The numbers of a map of two operators or of four.
pub type Numbers = fn(&mut Rng, usize) -> Vec<f64>;

/// Names of families, and how each draws a map.
pub const FAMILIES: [(&str, Numbers); 6] = [
    ("gates", gates),
    ("permutations", permutation),
    ("floats", floats),
    ("singular", singular),
    ("extreme", extreme),
    ("nan", nan),
];

/// Operations of a list, at least and at most.
const LENGTH: [usize; 2] = [4, 24];
/// Modes on which most of a long register's operations are, so that they meet.
const NEAR: usize = 6;

/// The places of the operations of a list on n modes, fewer of some that are refused.
pub fn list(rng: &mut Rng, n: usize, numbers: Numbers) -> Vec<Vec<f64>> {
    let near = rng.below(n.saturating_sub(NEAR) + 1);
    let [least, most] = LENGTH;
    (0..rng.between(least, most))
        .map(|_| match rng.below(16) {
            0 => interaction(rng, n),
            1 | 2 => refused(rng, n),
            _ => map(rng, n, near, numbers),
        })
        .collect()
}

/// A map of one mode or of two, one in eight of which lie anywhere; some have places too many.
fn map(rng: &mut Rng, n: usize, near: usize, numbers: Numbers) -> Vec<f64> {
    let modes = if n > 1 && rng.chance(3, 5) { 2 } else { 1 };
    let mode = match rng.chance(1, 8) {
        true => rng.below(n + 1 - modes),
        false => near + rng.below(n.min(NEAR) + 1 - modes),
    };
    let kind = if modes == 1 { kind::ONE } else { kind::TWO };
    let mut places = op(kind, mode as f64, &numbers(rng, 2 * modes));
    places.extend((0..rng.below(3)).map(|_| f64::NAN));
    places
}

/// An interaction, which is not asked for its mode.
fn interaction(rng: &mut Rng, n: usize) -> Vec<f64> {
    let mode = rng.pick(&[0.0, n as f64, -1.0, 0.5, f64::NAN]);
    op(kind::INTERACTION, mode, &any_floats(rng, 16))
}

/// An operation that 17 refuses: its kind, its mode or its length is bad, or there is no next mode.
fn refused(rng: &mut Rng, n: usize) -> Vec<f64> {
    let numbers = any_floats(rng, 16);
    let beyond = [n as f64, -1.0, 0.5, f64::NAN, f64::INFINITY, 1e300, f64::from_bits(1)];
    match rng.below(4) {
        0 => op(rng.pick(&[0.0, 4.0, 1.5, -1.0, f64::NAN]), 0.0, &numbers),
        1 => op(rng.pick(&[kind::ONE, kind::TWO]), rng.pick(&beyond), &numbers),
        2 => op(kind::TWO, n as f64 - 1.0, &numbers),
        _ => {
            let mut places = op(rng.pick(&[kind::ONE, kind::INTERACTION]), 0.0, &numbers);
            places.truncate(rng.pick(&[0, 1, 2, OP_PLACES - 1]));
            places
        }
    }
}

fn any_floats(rng: &mut Rng, count: usize) -> Vec<f64> {
    (0..count).map(|_| 2.0 * rng.unit() - 1.0).collect()
}

/// Of real gates: phases, rotations and exchanges, and as often with a flip before them, so that later modes turn.
fn gates(rng: &mut Rng, width: usize) -> Vec<f64> {
    let mut gates = if rng.chance(1, 2) { vec![Gate::X(0)] } else { vec![] };
    if width == 2 {
        gates.push(pieces::phase(rng, 0));
        let of = |g: &Gate| g.matrix_1q().expect("a one-qubit gate");
        let u = gates.iter().map(of).reduce(|u, v| detect::mul2(&v, &u)).expect("a gate");
        return detect::majorana_map1(&u).0.concat();
    }
    gates.extend(pieces::matchgate(rng, 0, 1, false).gates);
    detect::majorana_map2(&pieces::matrix(&gates)).0.concat()
}

/// Each operator goes to one of them with a sign, as under gates of quarter turns.
fn permutation(rng: &mut Rng, width: usize) -> Vec<f64> {
    let mut q: Vec<f64> = (0..width * width).map(|_| rng.pick(&[0.0, -0.0])).collect();
    for (row, column) in rng.permutation(width).into_iter().enumerate() {
        q[width * row + column] = rng.pick(&[1.0, -1.0]);
    }
    q
}

fn floats(rng: &mut Rng, width: usize) -> Vec<f64> {
    any_floats(rng, width * width)
}

/// In two of three a row is zero, or half of another one, or nearly in proportion to others, so that rounding decides about the determinant.
fn singular(rng: &mut Rng, width: usize) -> Vec<f64> {
    let mut rows: Vec<Vec<f64>> = (0..width).map(|_| any_floats(rng, width)).collect();
    let order = rng.permutation(width);
    let [x, y] = [0, 1 % (width - 1)].map(|k| rows[order[k]].clone());
    let of: fn(f64, f64) -> f64 = match rng.below(6) {
        0 | 1 => return rows.concat(),
        2 => |_, _| 0.0,
        3 => |x, _| 0.5 * x,
        _ => |x, y| 0.1 * (x + y),
    };
    rows[order[width - 1]] = x.iter().zip(&y).map(|(x, y)| of(*x, *y)).collect();
    rows.concat()
}

/// A quarter of the numbers are zeros of either sign, below the normal floats, or so large or small that products leave the range.
fn extreme(rng: &mut Rng, width: usize) -> Vec<f64> {
    let least = f64::from_bits(1);
    let few = [0.0, 1.0, least, 1e-310, f64::MIN_POSITIVE, 1e-160, 1e160, f64::MAX];
    let number = |rng: &mut Rng| match rng.chance(1, 4) {
        true => rng.pick(&[1.0, -1.0]) * rng.pick(&few),
        false => 2.0 * rng.unit() - 1.0,
    };
    (0..width * width).map(|_| number(rng)).collect()
}

/// One map in eight has a number that is NaN or infinite.
fn nan(rng: &mut Rng, width: usize) -> Vec<f64> {
    let mut q = floats(rng, width);
    if rng.chance(1, 8) {
        q[rng.below(width * width)] = rng.pick(&[f64::NAN, f64::INFINITY, f64::NEG_INFINITY]);
    }
    q
}

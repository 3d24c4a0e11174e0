//! The engine's formula beside quantum mechanics in exact numbers, where nothing rounds: both written here, in plain Rust, generic over the numbers.
//! No float stands here, and no line is shared with the engine, the original or the proofs.

pub mod asked;
pub mod gates;
pub mod judge;
pub mod lists;
pub mod maker;
pub mod matrix;
pub mod number;
pub mod vector;

mod beside;
mod elimination;
mod fused;
mod judged;
mod maps;
mod pairs;
mod queries;
mod residues;
mod seen;
mod shape;
mod shots;
mod state;

use crate::rng::Rng;
use lists::Shape;
use maker::list;
use number::Field;
use pairs::Pair;
use residues::Residue;
use seen::Seen;

/// Qubits at most.
const MOST: usize = 6;
/// Gates that are judged, for each list.
const JUDGED: usize = 4;

/// Compares so many lists in numbers of each kind; prints what was seen, and says whether all is well.
pub fn compare(seed: u64, count: usize) -> bool {
    let rng = &mut Rng::new(seed);
    seen::end(&[
        ("13", kind::<Residue<13>>(rng, count)),
        ("1000000009", kind::<Residue<1_000_000_009>>(rng, count)),
        ("19 and i", kind::<Pair<19>>(rng, count)),
        ("1000000007+i", kind::<Pair<1_000_000_007>>(rng, count)),
    ])
}

fn kind<N: Field>(rng: &mut Rng, count: usize) -> Seen {
    let mut seen = Seen::default();
    for _ in 0..count {
        let rng = &mut rng.split();
        let n = if rng.chance(1, 16) { 1 } else { rng.between(2, MOST) };
        let shape = Shape {
            order: rng.chance(3, 4),
            swaps: rng.chance(1, 2),
            interactions: rng.chance(1, 2),
            splits: rng.chance(3, 4),
        };
        let list = list::<N>(rng, n, shape);
        beside::compare(&mut seen, rng, &list);
        (0..JUDGED).for_each(|_| judged::compare::<N>(&mut seen, rng));
    }
    seen
}

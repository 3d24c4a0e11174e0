//! A list's operations on all sides: the engine's slice, the matrix of the plain engine in Rattle, that of the second one.

use crate::jozkeral::{self, Refusal};
use crate::layout::{question, state_places, MAX_QUBITS};
use crate::port::plain_apply;
use crate::slice::Slice;
use oracle::bits::all_same;
use oracle::plain::{covariance, same_but_zeros, Plain};
use oracle::rng::Rng;
use original::access::state::GaussianState;

/// Places after the plain matrix, which a call must leave alone.
const GUARD: [f64; 3] = [7.0, -0.0, f64::NAN];

pub struct Sides {
    pub engine: Slice,
    /// The plain engine's slice.
    plain: Vec<f64>,
    second: Plain,
}

impl Sides {
    /// The vacuum, with a random mode table.
    pub fn vacuum(rng: &mut Rng, n: usize) -> Sides {
        let mut engine = Slice::of(n, &GaussianState::vacuum(n));
        engine.modes = rng.permutation(n).into_iter().map(|k| k as u16).collect();
        let second = Plain::vacuum(n);
        Sides { engine, plain: [second.entries(), GUARD.to_vec()].concat(), second }
    }

    /// The matrix of the plain engine in Rattle.
    pub fn matrix(&self) -> &[f64] {
        &self.plain[..self.plain.len() - GUARD.len()]
    }

    /// A state of the plain matrix, with signs that are all 1.0.
    pub fn plain_state(&self) -> Slice {
        let n = self.engine.n;
        let places = [self.matrix(), &vec![1.0; 2 * n]].concat();
        Slice { n, places, modes: self.engine.modes.clone() }
    }

    /// An operation on all sides: whether the numbers are equal; the slices as they were, if it is refused, and in any case the places after
    /// the plain matrix; the two plain matrices equal in every bit; and the engine's covariance equal to them, zeros of either sign being one.
    pub fn step(&mut self, op: &[f64]) -> [bool; 4] {
        let n = self.engine.n;
        let old = [self.engine.places.clone(), self.plain.clone()];
        let number = self.engine.apply(op);
        let plain = [plain_apply(n, &mut self.plain, op), self.second.apply(op)];
        let matrix = self.matrix();
        [
            plain == [number; 2],
            self.is_kept(&old, number > 0),
            all_same(matrix, &self.second.entries()),
            same_but_zeros(&covariance(n, &self.engine.places), matrix),
        ]
    }

    fn is_kept(&self, [engine, plain]: &[Vec<f64>; 2], refused: bool) -> bool {
        let kept = all_same(&self.engine.places, engine) && all_same(&self.plain, plain);
        all_same(&self.plain[self.matrix().len()..], &GUARD) && (!refused || kept)
    }

    /// Whether 16 is the number for far too many modes, and for a slice that is a place too short, and nothing changes.
    pub fn refused(&mut self, rng: &mut Rng, op: &[f64]) -> bool {
        let Slice { n, places, modes } = &mut self.engine;
        let old = [places.clone(), self.plain.clone()];
        let (slice, matrix) = (places.len() - 1, self.plain.len() - GUARD.len() - 1);
        let many = rng.pick(&[MAX_QUBITS + 1, 1 << 32, 1 << 63, usize::MAX]);
        let numbers = [
            told(jozkeral::apply(*n, &mut places[..slice], modes, op)),
            told(jozkeral::apply(many, places, modes, op)),
            plain_apply(*n, &mut self.plain[..matrix], op),
            plain_apply(many, &mut self.plain, op),
        ];
        numbers == [question::BAD_STATE; 4] && self.is_kept(&old, true)
    }
}

/// Whether 16 is the number for one mode too many, in slices that are long enough, and nothing changes.
pub fn too_many(op: &[f64]) -> bool {
    let n = MAX_QUBITS + 1;
    let old = vec![0.5; state_places(n)];
    let modes: Vec<u16> = (0..n as u16).collect();
    let [mut engine, mut plain] = [old.clone(), old.clone()];
    let numbers =
        [told(jozkeral::apply(n, &mut engine, &modes, op)), plain_apply(n, &mut plain, op)];
    numbers == [question::BAD_STATE; 2] && engine == old && plain == old
}

fn told(answer: Result<(), Refusal>) -> u64 {
    Refusal::told(&answer)[0]
}

//! Calls on a state, one that operations made from the vacuum.

use super::{Each, Piece};
use crate::jozkeral::State;
use crate::layout::{query_places, INDEX_WORDS, MAX_QUBITS};
use crate::slice::{places, Slice};
use oracle::compiled::answer::Places;
use oracle::families::pieces;
use oracle::rng::Rng;
use original::access::detect::access as detect;
use original::access::detect::GaussOp;
use original::access::state::{access, GaussianState};
use original::gate::Gate;
use rand::Draws;
use std::hint::black_box;

/// Sizes that are timed.
pub const SIZES: [usize; 2] = [60, MAX_QUBITS];
/// Operations of one pass.
const OPS: usize = 64;
/// Shots of one call.
const SHOTS: usize = 8;

/// The kinds of operations that are timed.
#[derive(Clone, Copy)]
pub enum Kind {
    /// One mode, a rotation.
    One,
    /// Two modes, a rotation: the signs stay.
    Two,
    /// Two modes with a flip: all later signs turn.
    Odd,
}

/// An operation of a kind on a random mode.
pub fn operation(rng: &mut Rng, n: usize, kind: Kind) -> GaussOp {
    let (t, s) = (rng.angle(), rng.angle());
    let mut gates = pieces::xx(0, 1, t);
    gates.push(Gate::Rz(0, s));
    match kind {
        Kind::One => {
            let u = Gate::Rz(0, t).matrix_1q().expect("a one-qubit gate");
            return GaussOp::One { mode: rng.below(n), q: detect::majorana_map1(&u).0 };
        }
        Kind::Two => {}
        Kind::Odd => gates.push(Gate::X(0)),
    }
    GaussOp::Two { mode: rng.below(n - 1), q: detect::majorana_map2(&pieces::matrix(&gates)).0 }
}

/// The vacuum after so many operations that every mode is mixed with its neighbours.
pub fn mixed(rng: &mut Rng, n: usize) -> GaussianState {
    let mut s = GaussianState::vacuum(n);
    (0..12 * n).for_each(|_| s.apply(&operation(rng, n, Kind::Two)));
    let modes = rng.permutation(n);
    access::state(n, access::m(&s).to_vec(), access::d(&s).to_vec(), modes)
}

/// The calls on a state of each size.
pub fn pieces(rng: &mut Rng, each: Each) {
    for n in SIZES {
        let both = Both::new(rng, n);
        for (name, kind) in
            [("2-wide", Kind::One), ("4-wide", Kind::Two), ("4-wide odd", Kind::Odd)]
        {
            both.applies(rng, &format!("apply {name}, n = {n}"), kind, each);
        }
        both.product_of_one(&format!("product of one, n = {n}"), each);
        both.product(&format!("product of all, n = {n}"), each);
        both.index(&format!("basis index, n = {n}"), each);
        both.shot(rng, &format!("shot, n = {n}"), each);
    }
    for n in SIZES {
        let name = format!("apply 2-wide, natural order, n = {n}");
        Both::new(rng, n).in_natural_order().applies(rng, &name, Kind::One, each);
    }
}

/// A mixed state on both sides.
pub struct Both {
    n: usize,
    original: GaussianState,
    port: Slice,
}

impl Both {
    pub fn new(rng: &mut Rng, n: usize) -> Both {
        let original = mixed(rng, n);
        let port = Slice::of(n, &original);
        Both { n, original, port }
    }

    /// The same with qubit q on mode q, as for a circuit of neighbours.
    fn in_natural_order(self) -> Both {
        let Both { n, original, .. } = self;
        let (m, d) = (access::m(&original).to_vec(), access::d(&original).to_vec());
        let original = access::state(n, m, d, (0..n).collect());
        let port = Slice::of(n, &original);
        Both { n, original, port }
    }

    /// Bytes of a state on each side: the floats of the vacuum.
    pub fn bytes(n: usize) -> [f64; 2] {
        let original = GaussianState::vacuum(n);
        let port = Slice::of(n, &original);
        let floats = [access::m(&original).len() + access::d(&original).len(), port.places.len()];
        floats.map(|count| (size_of::<f64>() * count) as f64)
    }

    /// The state as the port is asked.
    fn asked(&self) -> State<'_> {
        State { n: self.n, slice: &self.port.places, modes: &self.port.modes }
    }

    /// The work that a query of all qubits asks for.
    fn work(&self) -> Vec<f64> {
        vec![0.0; query_places(self.n)]
    }

    /// Operations one after the other, on a state of each side's own.
    pub fn applies(&self, rng: &mut Rng, name: &str, kind: Kind, each: Each) {
        let ops: Vec<GaussOp> = (0..OPS).map(|_| operation(rng, self.n, kind)).collect();
        let flat: Vec<Places> = ops.iter().map(places).collect();
        let mut slice = Slice::of(self.n, &self.original);
        let mut s = self.original.clone();
        each(Piece {
            name,
            calls: OPS,
            original: &mut || ops.iter().for_each(|op| s.apply(op)),
            port: &mut || flat.iter().for_each(|op| assert_eq!(slice.apply(op), 0)),
        });
    }

    /// Z of each qubit.
    fn product_of_one(&self, name: &str, each: Each) {
        let mut work = [0.0; query_places(1)];
        each(Piece {
            name,
            calls: self.n,
            original: &mut || {
                for q in 0..self.n {
                    black_box(self.original.expectation_z_product(&[q]).expect("a good qubit"));
                }
            },
            port: &mut || {
                for q in 0..self.n {
                    let product = self.asked().expectation_z_product(&[q], &mut work);
                    black_box(product.expect("a good qubit"));
                }
            },
        });
    }

    /// Z of all qubits together.
    pub fn product(&self, name: &str, each: Each) {
        let all: Vec<usize> = (0..self.n).collect();
        let mut work = self.work();
        each(Piece {
            name,
            calls: 1,
            original: &mut || {
                black_box(self.original.expectation_z_product(&all).expect("good qubits"));
            },
            port: &mut || {
                let product = self.asked().expectation_z_product(&all, &mut work);
                black_box(product.expect("good qubits"));
            },
        });
    }

    /// The probability of all zeros.
    fn index(&self, name: &str, each: Each) {
        let mut work = self.work();
        each(Piece {
            name,
            calls: 1,
            original: &mut || {
                black_box(self.original.probability(black_box(0)).expect("at most 128 qubits"));
            },
            port: &mut || {
                black_box(self.asked().probability(black_box(0), 0, &mut work).expect("work"));
            },
        });
    }

    /// Shots of one call.
    pub fn shot(&self, rng: &mut Rng, name: &str, each: Each) {
        let draws: Vec<f64> = (0..SHOTS * self.n).map(|_| rng.unit()).collect();
        let mut out = [0; INDEX_WORDS * SHOTS];
        let mut work = self.work();
        each(Piece {
            name,
            calls: SHOTS,
            original: &mut || {
                let shots = self.original.sample(SHOTS, &mut Draws(draws.iter()));
                black_box(shots.expect("at most 128 qubits"));
            },
            port: &mut || {
                self.asked().sample(SHOTS, &draws, &mut work, &mut out).expect("good draws");
                black_box(&out);
            },
        });
    }
}

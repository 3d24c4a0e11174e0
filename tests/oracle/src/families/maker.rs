//! A gate list in the making. It follows slots and wires as the engine does,
//! so that a family can say which wires a block is to join.

use super::pieces::Piece;
use crate::list::RELABEL;
use crate::rng::Rng;
use original::gate::Gate;

/// The gates so far, and where each wire is.
pub struct Maker<'a> {
    pub rng: &'a mut Rng,
    pub n: usize,
    pub flags: u8,
    pub gates: Vec<Gate>,
    /// The slot of each qubit; an explicit swap exchanges two.
    slot: Vec<usize>,
    /// The wire in each slot; a block that equals a swap times a block exchanges two.
    wire: Vec<usize>,
    /// The other slot of the newest block on each slot.
    partner: Vec<Option<usize>>,
}

impl<'a> Maker<'a> {
    /// No gates yet.
    pub fn new(rng: &'a mut Rng, n: usize, flags: u8) -> Maker<'a> {
        let numbers: Vec<usize> = (0..n).collect();
        let (slot, wire) = (numbers.clone(), numbers);
        Maker { rng, n, flags, gates: Vec::new(), slot, wire, partner: vec![None; n] }
    }

    /// Whether swaps are relabelled.
    pub fn relabels(&self) -> bool {
        self.flags & RELABEL != 0
    }

    /// A random qubit.
    pub fn qubit(&mut self) -> usize {
        self.rng.below(self.n)
    }

    /// A random pair of qubits, in either order, whose wires fit.
    pub fn pair(&mut self, fits: impl Fn(usize, usize) -> bool) -> Option<(usize, usize)> {
        self.pair_where(|maker, a, b| fits(maker.wire_of(a), maker.wire_of(b)))
    }

    /// The same, but a block on the pair must not join the block before it.
    pub fn fresh_pair(&mut self, fits: impl Fn(usize, usize) -> bool) -> Option<(usize, usize)> {
        self.pair_where(|maker, a, b| {
            fits(maker.wire_of(a), maker.wire_of(b)) && !maker.joins(a, b)
        })
    }

    /// Adds a one-qubit gate, or several.
    pub fn tail(&mut self, gates: &[Gate]) {
        self.gates.extend(gates);
    }

    /// Adds a block on two qubits.
    pub fn block(&mut self, a: usize, b: usize, piece: Piece) {
        self.gates.extend(piece.gates);
        let (s, t) = (self.slot[a], self.slot[b]);
        self.partner[s] = Some(t);
        self.partner[t] = Some(s);
        if piece.swaps && self.relabels() {
            self.wire.swap(s, t);
        }
    }

    /// Adds an explicit swap, which is a renaming or a block.
    pub fn swap(&mut self, a: usize, b: usize) {
        if self.relabels() {
            self.gates.push(Gate::Swap(a, b));
            self.slot.swap(a, b);
        } else {
            self.block(a, b, Piece::still(vec![Gate::Swap(a, b)]));
        }
    }

    fn wire_of(&self, q: usize) -> usize {
        self.wire[self.slot[q]]
    }

    fn joins(&self, a: usize, b: usize) -> bool {
        let (s, t) = (self.slot[a], self.slot[b]);
        self.partner[s] == Some(t) && self.partner[t] == Some(s)
    }

    fn pair_where(&mut self, fits: impl Fn(&Self, usize, usize) -> bool) -> Option<(usize, usize)> {
        let all = (0..self.n).flat_map(|a| (0..self.n).map(move |b| (a, b)));
        let pairs: Vec<_> = all.filter(|&(a, b)| a != b && fits(self, a, b)).collect();
        match pairs.is_empty() {
            true => None,
            false => Some(self.rng.pick(&pairs)),
        }
    }
}

/// Two wires that follow each other.
pub fn neighbours(v: usize, w: usize) -> bool {
    v.abs_diff(w) == 1
}

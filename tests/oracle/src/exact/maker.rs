//! Random lists of gates on qubits which matchgates of neighbours can stand for.

use super::gates::{any2, any4, interaction, matchgate2, matchgate4};
use super::lists::{inverted, Gate, List, Shape, Step};
use super::matrix::{swap, Unitary};
use super::number::Number;
use crate::rng::Rng;

/// Gates that a block is split into, on top of one, at most.
const SPLITS: usize = 3;

struct Maker<'a, N> {
    rng: &'a mut Rng,
    shape: Shape,
    /// The qubit on each mode.
    on: Vec<usize>,
    /// How each mode ends.
    ends: Vec<End>,
    steps: Vec<Step<N>>,
}

/// What a mode ends with: nothing yet; gates of its qubit alone, which the next block must take; a block or an interaction with a neighbour, of that
/// number.
#[derive(Clone, Copy, PartialEq)]
enum End {
    Nothing,
    Alone,
    Block(usize),
    Interaction(usize),
}

/// A list on n qubits.
pub fn list<N: Number>(rng: &mut Rng, n: usize, shape: Shape) -> List<N> {
    let on = if shape.order { rng.permutation(n) } else { (0..n).collect() };
    let modes = inverted(&on);
    let mut maker = Maker { rng, shape, on, ends: vec![End::Nothing; n], steps: vec![] };
    for _ in 0..maker.rng.between(2 * n, 5 * n) {
        maker.step();
    }
    List { n, modes, steps: maker.steps }
}

impl<N: Number> Maker<'_, N> {
    fn step(&mut self) {
        let n = self.on.len();
        if n == 1 || self.rng.chance(1, 5) {
            let mode = self.rng.below(n);
            self.on_one(mode);
        } else if self.shape.swaps && self.rng.chance(1, 8) {
            let (j, k) = (self.rng.below(n), self.rng.below(n - 1));
            let k = if k < j { k } else { k + 1 };
            self.steps.push(Step::Swap(self.on[j], self.on[k]));
            self.on.swap(j, k);
        } else {
            let k = self.rng.below(n - 1);
            let pair = [self.on[k], self.on[k + 1]];
            let pair = if self.rng.chance(1, 2) { pair } else { [pair[1], pair[0]] };
            self.on_two(k, pair);
        }
    }

    /// Not after an interaction, since with gates before it these may be one without them.
    fn on_one(&mut self, mode: usize) {
        let q = self.on[mode];
        if matches!(self.ends[mode], End::Interaction(_)) {
            return;
        }
        self.ends[mode] = End::Alone;
        let gates = (0..self.rng.between(1, 2)).map(|_| Gate::One(q, matchgate2(self.rng)));
        self.steps.push(Step::Block(vec![q], gates.collect()));
    }

    /// A block or an interaction. One of these does not follow the other on the same pair, where the two would be one block.
    fn on_two(&mut self, k: usize, pair: [usize; 2]) {
        let (this, ends) = (self.steps.len(), [self.ends[k], self.ends[k + 1]]);
        if self.shape.interactions && self.rng.chance(1, 4) {
            let block = matches!(ends[0], End::Block(_)) && ends[0] == ends[1];
            if !block && !ends.contains(&End::Alone) {
                self.steps.push(Step::Interaction(pair, interaction(self.rng)));
                self.ends[k..k + 2].fill(End::Interaction(this));
            }
            return;
        }
        if matches!(ends[0], End::Interaction(_)) && ends[0] == ends[1] {
            return;
        }
        self.ends[k..k + 2].fill(End::Block(this));
        let mut goal = matchgate4(self.rng);
        if self.shape.swaps && self.rng.chance(1, 4) {
            goal = goal.then(&Unitary::own_inverse(swap()));
            self.on.swap(k, k + 1);
        }
        let gates = self.written(pair, goal);
        self.steps.push(Step::Block(pair.to_vec(), gates));
    }

    /// A gate on a pair as gates one after the other, each of two qubits in either order; beside interactions with one of two qubits at both ends.
    fn written(&mut self, pair: [usize; 2], goal: Unitary<N, 4>) -> Vec<Gate<N>> {
        let (mut gates, mut rest) = (vec![], goal);
        let splits = if self.shape.splits { self.rng.below(SPLITS + 1) } else { 0 };
        let ends_alone = !self.shape.interactions;
        for _ in 0..splits {
            let (first, piece) = self.piece(pair, ends_alone || !gates.is_empty());
            gates.push(first);
            rest = piece.undone().then(&rest);
        }
        let last =
            (splits > 0 && ends_alone && self.rng.chance(1, 4)).then(|| self.piece_of_one(pair));
        if let Some((_, piece)) = &last {
            rest = rest.then(&piece.undone());
        }
        gates.push(self.of_two(pair, rest));
        gates.extend(last.map(|(gate, _)| gate));
        gates
    }

    /// A gate, and what it is on the pair.
    fn piece(&mut self, pair: [usize; 2], may_be_alone: bool) -> (Gate<N>, Unitary<N, 4>) {
        let u = match self.rng.below(3) {
            0 if may_be_alone => return self.piece_of_one(pair),
            1 => any4(self.rng),
            _ => matchgate4(self.rng),
        };
        (self.of_two(pair, u), u)
    }

    fn piece_of_one(&mut self, pair: [usize; 2]) -> (Gate<N>, Unitary<N, 4>) {
        let second = self.rng.chance(1, 2);
        let u = if self.rng.chance(1, 2) { any2(self.rng) } else { matchgate2(self.rng) };
        (Gate::One(pair[usize::from(second)], u), u.on(second))
    }

    fn of_two(&mut self, [a, b]: [usize; 2], u: Unitary<N, 4>) -> Gate<N> {
        match self.rng.chance(1, 2) {
            true => Gate::Two([a, b], u),
            false => Gate::Two([b, a], u.exchanged()),
        }
    }
}

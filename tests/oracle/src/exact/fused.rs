//! From a list of gates on qubits to maps on modes: gates of a block are multiplied, and a block that is no matchgate may be one times a swap, which
//! renames.

use super::lists::{Gate, List, Step};
use super::maps::{self, Map};
use super::matrix::{swap, Matrix, Unitary};
use super::number::Field;
use super::state::{Fault, State};

pub enum Operation<N> {
    One(usize, Matrix<N, 2>),
    /// On a mode and the next one.
    Two(usize, Matrix<N, 4>),
    Interaction,
}

pub struct Fused<N> {
    pub operations: Vec<Operation<N>>,
    /// The mode of each qubit at the end.
    pub modes: Vec<usize>,
    /// Blocks that are a matchgate times a swap.
    pub swapped: usize,
}

/// None if a block is no matchgate, or its modes do not follow each other.
pub fn fused<N: Field>(list: &List<N>) -> Option<Fused<N>> {
    let mut out = Fused { operations: vec![], modes: list.modes.clone(), swapped: 0 };
    for step in &list.steps {
        match step {
            Step::Swap(a, b) => out.modes.swap(*a, *b),
            Step::Interaction(..) => out.operations.push(Operation::Interaction),
            Step::Block(qubits, gates) => match qubits[..] {
                [q] => out.one(q, gates)?,
                [a, b] => out.two([a, b], gates)?,
                _ => return None,
            },
        }
    }
    Some(out)
}

impl<N: Field> Fused<N> {
    fn one(&mut self, q: usize, gates: &[Gate<N>]) -> Option<()> {
        let mut all = Unitary::identity();
        for gate in gates {
            let Gate::One(_, u) = gate else { return None };
            all = all.then(u);
        }
        let map = maps::of_one(&all);
        self.operations.push(Operation::One(self.modes[q], map.q));
        map.whole.then_some(())
    }

    fn two(&mut self, pair: [usize; 2], gates: &[Gate<N>]) -> Option<()> {
        let [j, k] = pair.map(|q| self.modes[q]);
        let [first, second] = if j < k { pair } else { [pair[1], pair[0]] };
        if j.abs_diff(k) != 1 {
            return None;
        }
        let mut all = Unitary::identity();
        for gate in gates {
            all = all.then(&on(first, gate));
        }
        let mut map = maps::of_two(&all);
        if !map.whole {
            map = maps::of_two(&all.then(&Unitary::own_inverse(swap())));
            self.modes.swap(first, second);
            self.swapped += 1;
        }
        let Map { q, whole } = map;
        self.operations.push(Operation::Two(j.min(k), q));
        whole.then_some(())
    }

    /// The state after all of them, from the vacuum.
    pub fn state(&self, fault: Fault) -> State<N> {
        let mut state = State::vacuum(self.modes.len(), fault);
        for operation in &self.operations {
            match operation {
                Operation::One(mode, q) => state.apply(*mode, q),
                Operation::Two(mode, q) => state.apply(*mode, q),
                Operation::Interaction => {}
            }
        }
        state
    }
}

/// A gate as one on a pair of which the first qubit is named.
fn on<N: Field>(first: usize, gate: &Gate<N>) -> Unitary<N, 4> {
    match gate {
        Gate::One(q, u) => u.on(*q != first),
        Gate::Two([a, _], u) if *a == first => *u,
        Gate::Two(_, u) => u.exchanged(),
    }
}

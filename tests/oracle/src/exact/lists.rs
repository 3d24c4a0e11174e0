//! Lists of gates on qubits, and what they may have.

use super::matrix::Unitary;

#[derive(Clone, Debug)]
pub enum Gate<N> {
    One(usize, Unitary<N, 2>),
    Two([usize; 2], Unitary<N, 4>),
}

#[derive(Clone, Debug)]
pub enum Step<N> {
    /// Gates that are one block together: on one qubit, or on two.
    Block(Vec<usize>, Vec<Gate<N>>),
    /// Two qubits change places, by name.
    Swap(usize, usize),
    /// A phase where both qubits are 1, which is passed over.
    Interaction([usize; 2], Unitary<N, 4>),
}

#[derive(Clone, Debug)]
pub struct List<N> {
    pub n: usize,
    /// The mode of each qubit at the start.
    pub modes: Vec<usize>,
    pub steps: Vec<Step<N>>,
}

/// What a list may have.
#[derive(Clone, Copy, Default)]
pub struct Shape {
    /// Modes in another order than qubits.
    pub order: bool,
    /// Swaps, by name and within blocks.
    pub swaps: bool,
    /// Interactions that stand alone, so that they can be passed over.
    pub interactions: bool,
    /// Blocks of several gates, which need not be matchgates.
    pub splits: bool,
}

/// The qubit on each mode, by the mode of each qubit; or the other way round.
pub fn inverted(table: &[usize]) -> Vec<usize> {
    let mut out = vec![0; table.len()];
    table.iter().enumerate().for_each(|(k, &at)| out[at] = k);
    out
}

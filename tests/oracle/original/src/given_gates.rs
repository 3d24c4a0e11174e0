//! Gates and circuits for the tree `given`: what detect.rs asks of the original's, but that a gate may hold its matrix.

use crate::gate::{self, Mat2, Mat4};
use crate::items::Fused;

/// A gate: a Swap, which detect.rs names, another one of the original, or a given matrix.
#[derive(Clone, Copy, Debug)]
#[allow(clippy::large_enum_variant)] // a few short lists
pub enum Gate {
    Swap(usize, usize),
    Named(gate::Gate),
    One(usize, Mat2),
    Two(usize, usize, Mat4),
}

impl From<gate::Gate> for Gate {
    fn from(g: gate::Gate) -> Gate {
        match g {
            gate::Gate::Swap(a, b) => Gate::Swap(a, b),
            g => Gate::Named(g),
        }
    }
}

impl Gate {
    /// The gate of the original, if it is one.
    pub fn named(&self) -> Option<gate::Gate> {
        match *self {
            Gate::Swap(a, b) => Some(gate::Gate::Swap(a, b)),
            Gate::Named(g) => Some(g),
            _ => None,
        }
    }

    pub fn qubits(&self) -> Vec<usize> {
        match *self {
            Gate::One(q, _) => vec![q],
            Gate::Two(a, b, _) | Gate::Swap(a, b) => vec![a, b],
            Gate::Named(g) => g.qubits(),
        }
    }

    pub fn arity(&self) -> usize {
        self.qubits().len()
    }

    pub fn matrix_1q(&self) -> Option<Mat2> {
        match *self {
            Gate::One(_, m) => Some(m),
            _ => self.named().and_then(|g| g.matrix_1q()),
        }
    }

    pub fn matrix_2q(&self) -> Option<Mat4> {
        match *self {
            Gate::Two(_, _, m) => Some(m),
            _ => self.named().and_then(|g| g.matrix_2q()),
        }
    }
}

/// A list of gates.
#[derive(Clone, Debug)]
pub struct Circuit {
    pub num_qubits: usize,
    pub list: Vec<Gate>,
}

impl Circuit {
    pub fn gates(&self) -> impl Iterator<Item = &Gate> + '_ {
        self.list.iter()
    }
}

/// The function `fused` of a tree with these gates: circuit, tolerance, whether swaps are relabelled.
pub type Fuse = fn(&Circuit, f64, bool) -> Fused;

//! What a list and its maps have.

use super::elimination::determinant;
use super::fused::{Fused, Operation};
use super::lists::{List, Step};
use super::number::Field;
use super::seen::{Count::*, Seen};

/// Counts it; every determinant is 1 or -1.
pub fn note<N: Field>(seen: &mut Seen, list: &List<N>, fused: &Fused<N>) {
    seen.note(Reordered, usize::from(!fused.modes.is_sorted()));
    seen.note(Swapped, fused.swapped);
    for step in &list.steps {
        match step {
            Step::Block(_, gates) => {
                seen.note(Blocks, 1);
                seen.note(Several, usize::from(gates.len() > 1));
            }
            Step::Interaction(..) => seen.note(Passed, 1),
            Step::Swap(..) => {}
        }
    }
    for operation in &fused.operations {
        let Some(sign) = sign(operation) else { continue };
        seen.note(Odd, usize::from(sign == -N::ONE));
        let well = sign == N::ONE || sign == -N::ONE;
        seen.check(Odd, well, || format!("a determinant is {sign:?}\n{list:?}"));
    }
}

fn sign<N: Field>(operation: &Operation<N>) -> Option<N> {
    match operation {
        Operation::One(_, q) => Some(determinant(q)),
        Operation::Two(_, q) => Some(determinant(q)),
        Operation::Interaction => None,
    }
}

/// Whether an operation with determinant -1 has later modes.
pub fn turns<N: Field>(fused: &Fused<N>) -> bool {
    fused.operations.iter().any(|operation| {
        let behind = match operation {
            Operation::One(mode, _) => mode + 1,
            Operation::Two(mode, _) => mode + 2,
            Operation::Interaction => return false,
        };
        behind < fused.modes.len() && sign(operation) == Some(-N::ONE)
    })
}

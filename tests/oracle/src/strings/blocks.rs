//! Operations whose map is a signed permutation of the Majorana operators, as circuits of strings.

use super::{Circuit, Images, PauliString};
use crate::layout::{kind, OP_PLACES};

/// A row of a signed permutation: the column of its one number, and whether that is -1.
#[derive(Clone, Copy, Debug, PartialEq, Eq)]
pub struct Row {
    pub minus: bool,
    pub column: usize,
}

/// The circuit of operations, 18 places each, on n modes; none if a map is no signed permutation. An interaction does nothing.
pub fn circuit(n: usize, ops: &[f64]) -> Option<Circuit> {
    let mut circuit = Circuit::new(n);
    for op in ops.chunks(OP_PLACES) {
        let modes = match op[0] {
            kind::ONE => 1,
            kind::TWO => 2,
            _ => continue,
        };
        let mode = op[1] as usize;
        circuit.push((mode..mode + modes).collect(), images(&rows(&op[2..], 2 * modes)?));
    }
    Some(circuit)
}

/// The rows of a map, if one number in each row and in each column is 1 or -1, and the others are zeros.
pub fn rows(map: &[f64], width: usize) -> Option<Vec<Row>> {
    let row = |numbers: &[f64]| {
        let mut found = numbers.iter().enumerate().filter(|(_, &x)| x != 0.0);
        match (found.next(), found.next()) {
            (Some((column, &x)), None) if x.abs() == 1.0 => Some(Row { minus: x < 0.0, column }),
            _ => None,
        }
    };
    let rows: Vec<Row> = map[..width * width].chunks(width).map(row).collect::<Option<_>>()?;
    (0..width).all(|k| rows.iter().any(|row| row.column == k)).then_some(rows)
}

/// What a block that sends the Majorana operators of its modes by these rows makes of the Paulis there. Every Pauli is, but for a phase, the
/// product of some of these operators, in order, and its image the product of theirs.
pub fn images(rows: &[Row]) -> Images {
    let modes = rows.len() / 2;
    let mut images = vec![None; 1 << rows.len()];
    for chosen in 0..1 << rows.len() {
        let (mut paulis, mut image) = (PauliString::identity(modes), PauliString::identity(modes));
        for (k, row) in rows.iter().enumerate().filter(|(k, _)| chosen >> k & 1 == 1) {
            paulis = paulis.times(&PauliString::majorana(modes, k));
            let sent = PauliString::majorana(modes, row.column);
            image = image.times(&sent.with_phase(if row.minus { 2 } else { 0 }));
        }
        let without = image.with_phase((4 - paulis.phase) % 4);
        images[super::number(paulis.at.into_iter())] = Some(without);
    }
    Images(images.into_iter().map(|image| image.expect("an image of every Pauli")).collect())
}

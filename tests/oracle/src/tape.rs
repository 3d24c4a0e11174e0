//! The tape of a gate list: header, then one record a gate. Gates that have no
//! code of their own come as given matrices.

use crate::layout::{given_floats, HEADER_BYTES};
use crate::list::List;
use original::gate::Gate;

const HEADER: [u8; 2] = [0x51, 0x48];
const GATE: [u8; 2] = [0x51, 0x47];
const LABEL: [u8; 2] = [0x51, 0x4c];

/// Code of a given 2 by 2 matrix.
pub const GIVEN2: u8 = 0x0f;
/// Code of a given 4 by 4 matrix.
pub const GIVEN4: u8 = 0x1f;

/// The codes of the named one-qubit gates, each with an example.
pub const NAMED1: [(u8, Gate); 9] = [
    (0x00, Gate::I(0)),
    (0x01, Gate::H(0)),
    (0x02, Gate::X(0)),
    (0x03, Gate::Y(0)),
    (0x04, Gate::Z(0)),
    (0x05, Gate::S(0)),
    (0x06, Gate::Sdg(0)),
    (0x07, Gate::Sx(0)),
    (0x08, Gate::Sxdg(0)),
];

/// The codes of the named two-qubit gates, each with an example.
pub const NAMED2: [(u8, Gate); 5] = [
    (0x10, Gate::Cnot(0, 1)),
    (0x11, Gate::Cz(0, 1)),
    (0x12, Gate::Swap(0, 1)),
    (0x13, Gate::ISwap(0, 1)),
    (0x14, Gate::ISwapdg(0, 1)),
];

/// Code of the three-qubit gate.
pub const CCX: u8 = 0x20;

/// The bytes of a list's tape.
pub fn tape(list: &List) -> Result<Vec<u8>, String> {
    let mut out = header(list)?;
    list.gates.iter().for_each(|g| out.extend(record(g, false)));
    Ok(out)
}

/// The bytes of the header.
pub fn header(list: &List) -> Result<Vec<u8>, String> {
    let n = u8::try_from(list.n).map_err(|_| format!("a tape has one byte for n = {}", list.n))?;
    let mut out = HEADER.to_vec();
    out.extend([n, list.flags]);
    out.extend(list.tol.to_le_bytes());
    out.extend(list.limit.to_le_bytes());
    Ok(out)
}

/// The record of a gate; with `given` its matrix stands there even if it has a code of its own.
pub fn record(g: &Gate, given: bool) -> Vec<u8> {
    let code = if given { given_code(g) } else { code(g) };
    coded(code, &g.qubits(), &given_entries(g, code))
}

/// The record of a code, qubits and entries.
pub fn coded(code: u8, qubits: &[usize], entries: &[f64]) -> Vec<u8> {
    let mut out = GATE.to_vec();
    out.push(code);
    out.extend(qubits.iter().map(|&q| q as u8));
    out.extend(entries.iter().flat_map(|x| x.to_le_bytes()));
    out
}

/// The record of a label.
pub fn label(text: &[u8]) -> Vec<u8> {
    [&LABEL, &[text.len() as u8][..], text].concat()
}

/// How many gates a whole tape has; labels are not counted.
pub fn gates_on(bytes: &[u8]) -> usize {
    let (mut at, mut gates) = (HEADER_BYTES, 0);
    let matrix = |qubits: usize| size_of::<f64>() * given_floats(qubits);
    while at < bytes.len() {
        let (mark, third) = (bytes[at + 1], bytes[at + 2]);
        gates += usize::from(mark == GATE[1]);
        at += match (mark == GATE[1], third) {
            (false, length) => 3 + usize::from(length),
            (true, GIVEN2) => 4 + matrix(1),
            (true, GIVEN4) => 5 + matrix(2),
            (true, code) => 4 + usize::from(code >> 4),
        };
    }
    gates
}

/// The code of a gate.
fn code(g: &Gate) -> u8 {
    let same_kind = |x: &Gate| std::mem::discriminant(x) == std::mem::discriminant(g);
    let named = NAMED1.iter().chain(&NAMED2).find(|row| same_kind(&row.1));
    named.map_or_else(|| given_code(g), |row| row.0)
}

/// The code under which a gate's matrix is given; three-qubit gates have none.
fn given_code(g: &Gate) -> u8 {
    match g.arity() {
        1 => GIVEN2,
        2 => GIVEN4,
        _ => CCX,
    }
}

/// The entries that follow a gate's qubits: none unless its matrix is given.
fn given_entries(g: &Gate, code: u8) -> Vec<f64> {
    match code {
        GIVEN2 => entries(&g.matrix_1q().expect("a one-qubit gate")),
        GIVEN4 => entries(&g.matrix_2q().expect("a two-qubit gate")),
        _ => vec![],
    }
}

/// The entries of a matrix, row by row, real before imaginary.
pub fn entries<const K: usize>(m: &[[original::Complex64; K]; K]) -> Vec<f64> {
    m.iter().flatten().flat_map(|x| [x.re, x.im]).collect()
}

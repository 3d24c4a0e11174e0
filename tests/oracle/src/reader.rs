//! A plain reader of tapes, written from document 01 ("The tape" and questions
//! 1 to 8): what a tape must be answered with, and what stands on it.

use crate::layout::{given_floats, HEADER_BYTES, MAX_GATES, MAX_LABEL, MAX_QUBITS};
use crate::tape::{CCX, GIVEN2, GIVEN4, NAMED1, NAMED2};

const MOST_FLAGS: u8 = 7;
const LARGEST_TOL: f64 = 0.001;
const LARGEST_ENTRY: f64 = 2.0;
/// Bytes of a float.
const FLOAT: usize = size_of::<f64>();

/// Number and place of a refusal.
pub type Refused = [u64; 2];

/// What stands on a good tape.
#[derive(Debug)]
pub struct Tape<'a> {
    pub n: usize,
    pub flags: u8,
    pub tol: f64,
    pub limit: u64,
    pub gates: Vec<Record<'a>>,
    /// Start and end of each label's bytes.
    pub labels: Vec<(usize, usize)>,
}

/// A gate record.
#[derive(Debug)]
pub struct Record<'a> {
    pub place: usize,
    pub code: u8,
    pub qubits: Vec<usize>,
    /// The bytes of a given matrix.
    pub entries: &'a [u8],
}

/// Reads a whole tape.
pub fn read(bytes: &[u8]) -> Result<Tape<'_>, Refused> {
    let mut tape = header(bytes)?;
    let mut at = HEADER_BYTES;
    while at < bytes.len() {
        at = match bytes[at..] {
            [0x51, 0x47, ..] if tape.gates.len() == MAX_GATES => return Err([4, at as u64]),
            [0x51, 0x47, code, ..] => gate(&mut tape, bytes, at, code)?,
            [0x51, 0x4c, length, ..] => label(&mut tape, bytes, at, usize::from(length))?,
            _ => return Err([5, at as u64]),
        };
    }
    Ok(tape)
}

fn header(bytes: &[u8]) -> Result<Tape<'_>, Refused> {
    let [0x51, 0x48, n, flags, ..] = *bytes else {
        return Err([1, 0]);
    };
    if bytes.len() < HEADER_BYTES {
        return Err([1, 0]);
    }
    if usize::from(n) > MAX_QUBITS || flags > MOST_FLAGS {
        return Err([2, 0]);
    }
    let tol = f64::from_le_bytes(eight(&bytes[4..]));
    if !(0.0..=LARGEST_TOL).contains(&tol) {
        return Err([3, 0]);
    }
    let limit = u64::from_le_bytes(eight(&bytes[12..]));
    Ok(Tape { n: n.into(), flags, tol, limit, gates: vec![], labels: vec![] })
}

fn eight(bytes: &[u8]) -> [u8; FLOAT] {
    bytes[..FLOAT].try_into().expect("eight bytes")
}

/// How many qubits and how many bytes of entries a code has.
fn shape(code: u8) -> Option<(usize, usize)> {
    match code {
        GIVEN2 => Some((1, FLOAT * given_floats(1))),
        GIVEN4 => Some((2, FLOAT * given_floats(2))),
        CCX => Some((3, 0)),
        _ if NAMED1.iter().any(|row| row.0 == code) => Some((1, 0)),
        _ if NAMED2.iter().any(|row| row.0 == code) => Some((2, 0)),
        _ => None,
    }
}

/// Takes the gate record at a place; where the next record begins.
fn gate<'a>(tape: &mut Tape<'a>, bytes: &'a [u8], at: usize, code: u8) -> Result<usize, Refused> {
    let refuse = |number: u64| Err([number, at as u64]);
    let Some((count, length)) = shape(code) else {
        return refuse(5);
    };
    let (start, end) = (at + 3 + count, at + 3 + count + length);
    if end > bytes.len() {
        return refuse(5);
    }
    let qubits: Vec<usize> = bytes[at + 3..start].iter().map(|&q| q.into()).collect();
    if qubits.iter().any(|&q| q >= tape.n) {
        return refuse(6);
    }
    if (1..count).any(|k| qubits[..k].contains(&qubits[k])) {
        return refuse(7);
    }
    let entries = &bytes[start..end];
    let good = |x: &[u8]| f64::from_le_bytes(eight(x)).abs() <= LARGEST_ENTRY;
    if !entries.chunks(FLOAT).all(good) {
        return refuse(8);
    }
    tape.gates.push(Record { place: at, code, qubits, entries });
    Ok(end)
}

/// Takes the label at a place.
fn label(tape: &mut Tape, bytes: &[u8], at: usize, length: usize) -> Result<usize, Refused> {
    let (start, end) = (at + 3, at + 3 + length);
    let good = |text: &[u8]| text.iter().all(|b| (0x20..=0x7e).contains(b));
    if length > MAX_LABEL || !bytes.get(start..end).is_some_and(good) {
        return Err([5, at as u64]);
    }
    tape.labels.push((start, end));
    Ok(end)
}

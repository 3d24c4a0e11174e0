//! The tape: the bytes that the engine reads. Here it is written from records, and read back into records to be shown; what
//! the engine makes of a tape is the engine's own affair.

use crate::gates;
use crate::layout::{covariance_bytes, given_floats, HEADER_BYTES};

/// The mark that a tape begins with.
pub const HEADER_MARK: [u8; 2] = [0x51, 0x48];
const GATE_MARK: [u8; 2] = [0x51, 0x47];
const LABEL_MARK: [u8; 2] = [0x51, 0x4C];

/// The code of a given 2 by 2 matrix, and of a given 4 by 4 one.
pub const GIVEN1: u8 = 0x0F;
pub const GIVEN2: u8 = 0x1F;

/// What the header says.
#[derive(Clone, Copy, Debug, PartialEq)]
pub struct Header {
    pub qubits: u8,
    /// Treat swaps as wire renamings (flag bit 0).
    pub relabel: bool,
    /// Look for another order of the wires (flag bit 1).
    pub reorder: bool,
    /// Leave interactions out instead of refusing them (flag bit 2).
    pub drop: bool,
    pub tolerance: f64,
    /// Most bytes that the covariance matrix may have.
    pub limit: u64,
}

impl Header {
    /// The original's own settings.
    pub fn usual(qubits: u8) -> Header {
        Header {
            qubits,
            relabel: true,
            reorder: true,
            drop: false,
            tolerance: 1e-10,
            limit: 1 << 30,
        }
    }

    /// The bytes of the covariance matrix: question 14.
    pub fn covariance_bytes(&self) -> u64 {
        covariance_bytes(self.qubits.into())
    }

    pub fn bytes(&self) -> Vec<u8> {
        let flags = u8::from(self.relabel) | u8::from(self.reorder) << 1 | u8::from(self.drop) << 2;
        let mut out = HEADER_MARK.to_vec();
        out.extend([self.qubits, flags]);
        out.extend(self.tolerance.to_le_bytes());
        out.extend(self.limit.to_le_bytes());
        out
    }

    /// The header at the start of a tape, if it is whole and its flags are at most 7.
    pub fn read(tape: &[u8]) -> Option<Header> {
        let h = tape.get(..HEADER_BYTES).filter(|h| h[..2] == HEADER_MARK && h[3] <= 7)?;
        Some(Header {
            qubits: h[2],
            relabel: h[3] & 1 != 0,
            reorder: h[3] & 2 != 0,
            drop: h[3] & 4 != 0,
            tolerance: f64::from_le_bytes(eight(&h[4..])),
            limit: u64::from_le_bytes(eight(&h[12..])),
        })
    }
}

/// A gate or a label.
#[derive(Clone, Debug, PartialEq)]
pub enum Record {
    /// Code, qubits, and the entries of a given matrix, row by row, real before imaginary.
    Gate {
        code: u8,
        qubits: Vec<u8>,
        entries: Vec<f64>,
    },
    Label(Vec<u8>),
}

impl Record {
    pub fn bytes(&self) -> Vec<u8> {
        match self {
            Record::Gate { code, qubits, entries } => {
                let mut out = GATE_MARK.to_vec();
                out.push(*code);
                out.extend(qubits);
                out.extend(entries.iter().flat_map(|x| x.to_le_bytes()));
                out
            }
            Record::Label(text) => {
                let mut out = LABEL_MARK.to_vec();
                out.push(text.len() as u8);
                out.extend(text);
                out
            }
        }
    }

    /// The record as a line of a gate list, which reads back to the same record.
    pub fn text(&self) -> String {
        match self {
            Record::Gate { code, qubits, entries } => {
                let name = gates::coded(*code).map_or("matrix", |k| k.name);
                let qubits = qubits.iter().map(|q| format!(" {q}"));
                let entries =
                    entries.chunks(2).map(|z| format!(" {},{}", decimal(z[0]), decimal(z[1])));
                name.chars().map(String::from).chain(qubits).chain(entries).collect()
            }
            Record::Label(text) => {
                let quoted =
                    String::from_utf8_lossy(text).replace('\\', "\\\\").replace('"', "\\\"");
                format!("label \"{quoted}\"")
            }
        }
    }
}

/// A number that reads back to the same: a small one with a power of ten, in place of hundreds of zeros.
fn decimal(x: f64) -> String {
    if x != 0.0 && x.abs() < 1e-4 {
        return format!("{x:e}");
    }
    format!("{x}")
}

/// The record at an offset, if it is whole and has a known mark and code. Its length is that of its bytes.
pub fn record_at(tape: &[u8], offset: usize) -> Option<Record> {
    let rest = &tape[offset..];
    let (mark, kind) = (rest.get(..2)?, *rest.get(2)?);
    if mark == LABEL_MARK {
        return Some(Record::Label(rest.get(3..3 + kind as usize)?.to_vec()));
    }
    let (qubits, floats) = match kind {
        _ if mark != GATE_MARK => return None,
        GIVEN1 => (1, given_floats(1)),
        GIVEN2 => (2, given_floats(2)),
        code => (gates::coded(code)?.qubits, 0),
    };
    let body = rest.get(3..3 + qubits + 8 * floats)?;
    let (qubits, entries) = body.split_at(qubits);
    let entries = entries.chunks(8).map(|b| f64::from_le_bytes(eight(b))).collect();
    Some(Record::Gate { code: kind, qubits: qubits.to_vec(), entries })
}

/// The first eight bytes of a slice that has them.
fn eight(bytes: &[u8]) -> [u8; 8] {
    bytes[..8].try_into().expect("eight bytes")
}

#[cfg(test)]
mod tests {
    use super::*;

    /// The tape of document 01's printed example.
    #[test]
    fn printed_example() {
        let h = Header { limit: 1 << 30, tolerance: 0.0, ..Header::usual(2) };
        let x = Record::Gate { code: 2, qubits: vec![0], entries: vec![] };
        let iswap = Record::Gate { code: 0x13, qubits: vec![0, 1], entries: vec![] };
        let tape = [h.bytes(), x.bytes(), iswap.bytes()].concat();
        let mut want = vec![0x51, 0x48, 2, 3, 0, 0, 0, 0, 0, 0, 0, 0, 0, 0, 0, 0x40, 0, 0, 0, 0];
        want.extend([0x51, 0x47, 2, 0, 0x51, 0x47, 0x13, 0, 1]);
        assert_eq!(tape, want);
        assert_eq!(Header::read(&tape), Some(h));
        assert_eq!(record_at(&tape, 20), Some(x));
        assert_eq!(record_at(&tape, 24), Some(iswap));
    }

    #[test]
    fn what_is_no_record() {
        for bytes in [&[0x51][..], &[0x51, 0x47], &[0x51, 0x47, 9, 0], &[0x51, 0x48, 0, 0]] {
            assert_eq!(record_at(bytes, 0), None);
        }
        assert_eq!(record_at(&[0x51, 0x4C, 2, 65], 0), None);
        assert_eq!(record_at(&[0x51, 0x47, 0x0F, 0, 1], 0), None);
    }
}

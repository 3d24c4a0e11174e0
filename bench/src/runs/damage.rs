//! Damage to the bytes of a tape, at random and where it tells.

use crate::layout::{HEADER_BYTES, MAX_GATES};
use oracle::reader::read;
use oracle::rng::Rng;
use oracle::tape::record;
use original::gate::Gate;

/// Bytes that mean something somewhere.
const TELLING: [u8; 16] = [
    0x00, 0x01, 0x02, 0x03, 0x0f, 0x12, 0x13, 0x1f, 0x20, 0x28, 0x29, 0x47, 0x48, 0x4c, 0x51, 0xff,
];

/// Floats at the edges of questions 3 and 8.
const FLOATS: [f64; 12] = [
    0.0,
    -0.0,
    0.001,
    0.0010000000000000002,
    2.0,
    -2.0,
    2.0000000000000004,
    f64::NAN,
    f64::INFINITY,
    f64::NEG_INFINITY,
    5e-324,
    1e-11,
];

/// One piece of damage.
pub fn damage(rng: &mut Rng, bytes: &mut Vec<u8>) {
    let at = rng.below(bytes.len() + 1);
    let end = (at + rng.between(1, 9)).min(bytes.len());
    match rng.below(10) {
        0 => bytes.truncate(at),
        1 => drop(bytes.drain(at..end)),
        2 => {
            let more: Vec<u8> = (at..at + rng.between(1, 9)).map(|_| any_byte(rng)).collect();
            bytes.splice(at..at, more).for_each(drop);
        }
        3 => bytes[at..end.min(at + 3)].iter_mut().for_each(|b| *b = any_byte(rng)),
        4 => bytes[at..end].iter_mut().take(1).for_each(|b| *b ^= 1 << rng.below(8)),
        5 if bytes.len() >= HEADER_BYTES => damage_header(rng, bytes),
        6 if rng.chance(1, 40) => too_many(rng, bytes),
        6 => {
            let copy = bytes[at..end].to_vec();
            bytes.extend(copy);
        }
        _ => damage_record(rng, bytes),
    }
}

fn any_byte(rng: &mut Rng) -> u8 {
    if rng.chance(1, 2) {
        rng.pick(&TELLING)
    } else {
        rng.word() as u8
    }
}

/// Another n, flags, tolerance or limit, or a byte of these.
fn damage_header(rng: &mut Rng, bytes: &mut [u8]) {
    match rng.below(6) {
        0 => bytes[2] = rng.pick(&[0, 1, 2, 3, 4, 5, 8, 12, 16, 129, 200, 255]),
        1 if rng.chance(1, 10) => bytes[2] = rng.pick(&[127, 128]),
        1 => bytes[3] = rng.below(16) as u8,
        2 => bytes[4..12].copy_from_slice(&rng.pick(&FLOATS).to_le_bytes()),
        3 => bytes[12..20].copy_from_slice(&(rng.below(4000) as u64).to_le_bytes()),
        _ => bytes[rng.pick(&[0, 1, 3, 4, 5, 9, 10, 11, 12, 13, 14, 18, 19])] = any_byte(rng),
    }
}

/// The code, a qubit, an entry or the whole of a gate record, if there is one.
fn damage_record(rng: &mut Rng, bytes: &mut Vec<u8>) {
    let Ok(tape) = read(bytes) else {
        return;
    };
    if tape.gates.is_empty() {
        return bytes.push(any_byte(rng));
    }
    let r = &tape.gates[rng.below(tape.gates.len())];
    let (start, n, qubits, entries) = (r.place, tape.n, r.qubits.len(), r.entries.len() / 8);
    let end = start + 3 + qubits + 8 * entries;
    match rng.below(5) {
        0 => {
            bytes[start + 2] =
                rng.pick(&[&TELLING[..], &[0x05, 0x08, 0x09, 0x10, 0x14, 0x15]].concat())
        }
        1 => bytes[start + 3 + rng.below(qubits)] = rng.below(n + 2) as u8,
        2 if entries > 0 => {
            let at = start + 3 + qubits + 8 * rng.below(entries);
            bytes[at..at + 8].copy_from_slice(&rng.pick(&FLOATS).to_le_bytes());
        }
        3 => drop(bytes.drain(start..end)),
        _ => {
            let copy = bytes[start..end].to_vec();
            let at = rng.pick(&[start, end, bytes.len()]);
            bytes.splice(at..at, copy).for_each(drop);
        }
    }
}

/// Gates up to the limit and about one more.
fn too_many(rng: &mut Rng, bytes: &mut Vec<u8>) {
    let Ok(tape) = read(bytes) else {
        return;
    };
    let more = (MAX_GATES + rng.below(3)).saturating_sub(tape.gates.len() + 1);
    let gate = record(&Gate::X(0), false);
    (0..more).for_each(|_| bytes.extend(&gate));
}

//! Words as bytes: most of what a run leaves is small numbers, zeros and ones.

/// A byte below this is a number by itself.
const CODES: u8 = 0xf0;
/// Floats that are common, from `CODES` on: 1, -1, -0, 7.
const COMMON: [f64; 4] = [1.0, -1.0, -0.0, 7.0];
/// A byte follows; that many zeros, and one more.
const ZEROS: u8 = 0xf4;
/// The eight bytes of a word follow.
const WORD: u8 = 0xf5;

pub fn pack(words: &[u64]) -> Vec<u8> {
    let mut out = Vec::new();
    for run in words.chunk_by(|a, b| *a == 0 && *b == 0) {
        match run {
            [x] => one(&mut out, *x),
            zeros => zeros.chunks(256).for_each(|part| out.extend([ZEROS, (part.len() - 1) as u8])),
        }
    }
    out
}

fn one(out: &mut Vec<u8>, x: u64) {
    let common = COMMON.iter().position(|c| c.to_bits() == x);
    if x < u64::from(CODES) {
        out.push(x as u8);
    } else if let Some(k) = common {
        out.push(CODES + k as u8);
    } else {
        out.push(WORD);
        out.extend(x.to_le_bytes());
    }
}

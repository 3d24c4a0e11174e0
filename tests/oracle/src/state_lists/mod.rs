//! The stored lists of states and the calls on them. A record is a tag, the
//! number of words that follow, and the words. crates/replay_state/README.md has
//! the table.

mod applies;
pub mod machine;
mod plain;
mod queries;
mod samples;
mod signs;
pub mod stops;

use crate::layout::{covariance_places, OP_PLACES};
use crate::rng::Rng;
use machine::Machine;

/// Tags of records.
pub mod tag {
    pub const STATE: u64 = 1;
    pub const APPLY: u64 = 2;
    pub const HOLDS: u64 = 3;
    pub const PRODUCT: u64 = 4;
    pub const MARGINAL: u64 = 5;
    pub const PROBABILITY: u64 = 6;
    pub const SAMPLE: u64 = 7;
    pub const PLAIN: u64 = 8;
}

/// The list of a name.
pub fn list(name: &str) -> Result<Vec<u8>, String> {
    let mut machine = Machine::new();
    match name {
        "signs" => signs::add(&mut machine),
        "applies" => applies::add(&mut machine),
        "queries" => queries::add(&mut machine),
        "edges" => queries::add_edges(&mut machine),
        "samples" => samples::add(&mut machine),
        "stops" => stops::add(&mut machine),
        "plain" => plain::add(&mut machine),
        _ => {
            return Err(format!(
                "there is no list `{name}`: signs, applies, queries, edges, samples, stops or plain"
            ))
        }
    }
    Ok(machine.out.bytes())
}

/// How the floats of a state are drawn.
#[derive(Clone, Copy)]
enum Floats {
    /// From -1 to 1.
    Dense,
    /// A few values, so that entries of equal magnitude meet.
    Few,
    /// Every kind that a float has.
    Special,
}

const FLOATS: [Floats; 3] = [Floats::Dense, Floats::Few, Floats::Special];

fn float(rng: &mut Rng, kind: Floats) -> f64 {
    let special = [
        f64::INFINITY,
        f64::NEG_INFINITY,
        f64::NAN,
        f64::from_bits(1),
        -1e-310,
        f64::MAX,
        1e-160,
        -1.0,
        1.0,
        0.0,
        -0.0,
    ];
    match kind {
        Floats::Dense => 2.0 * rng.unit() - 1.0,
        Floats::Few => rng.pick(&[0.0, -0.0, 0.5, -0.5, 0.25, 1.0, -1.0]),
        Floats::Special if rng.chance(1, 3) => rng.pick(&special),
        Floats::Special => 2.0 * rng.unit() - 1.0,
    }
}

/// A matrix and signs, not antisymmetric; the signs are 1 and -1, or of any kind.
fn any_slice(rng: &mut Rng, n: usize, kind: Floats, signs: bool) -> Vec<f64> {
    let mut out: Vec<f64> = (0..covariance_places(n)).map(|_| float(rng, kind)).collect();
    out.extend((0..2 * n).map(|_| if signs { rng.pick(&[1.0, -1.0]) } else { float(rng, kind) }));
    out
}

/// A random mode table.
fn any_modes(rng: &mut Rng, n: usize) -> Vec<u16> {
    rng.permutation(n).into_iter().map(|k| k as u16).collect()
}

/// The places of an operation: kind, mode, numbers.
pub fn op(kind: f64, mode: f64, numbers: &[f64]) -> Vec<f64> {
    let mut out = vec![kind, mode];
    out.extend(numbers);
    out.resize(OP_PLACES, 0.0);
    out
}

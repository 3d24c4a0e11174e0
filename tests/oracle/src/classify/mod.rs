//! The stored lists of blocks and what they are: maps, residuals and classes
//! by the original's functions, diagonal blocks by document 01's rule too.
//! docs/TESTING.md has the table of tags.

mod gates;
mod given;
mod phases;
pub mod rule;

use crate::bits::{same, word};
use crate::records::Records;
use crate::tape::entries;
use original::access::detect::access as detect;
use original::access::detect::DetectOptions;
use original::gate::{Mat2, Mat4};
use original::Complex64;
use rule::Kind;

/// Tags of records.
pub mod tag {
    pub const ONE: u64 = 1;
    pub const TWO: u64 = 2;
    pub const PHASES: u64 = 3;
}

/// The tolerances of every block, each without and with relabelling.
pub const TOLERANCES: [f64; 5] = [0.0, -0.0, 1e-12, 1e-10, 0.001];

/// Stands for the original's class where document 01 does not compare it.
const NOT_COMPARED: u64 = 8;

/// The list of a name.
pub fn list(name: &str) -> Result<Vec<u8>, String> {
    let mut out = Records::default();
    match name {
        "gates" => gates::add(&mut out),
        "given" => given::add(&mut out),
        "phases" => phases::add(&mut out),
        _ => return Err(format!("there is no list `{name}`: gates, given or phases")),
    }
    Ok(out.bytes())
}

/// Adds a one-qubit block: matrix, map, residual, whether the map conserves the particle number.
fn one(out: &mut Records, u: &Mat2) {
    let (q, residual) = detect::majorana_map1(u);
    let conserves = (q[0][0] - q[1][1]).abs() < 1e-9 && (q[0][1] + q[1][0]).abs() < 1e-9;
    out.floats(tag::ONE, &[&entries(u), q.as_flattened(), &[residual]]);
    out.words(&[u64::from(conserves)]);
}

/// Adds a two-qubit block: matrix, map, residual, whether the map conserves the particle number,
/// off-diagonal norm; then class and residual without and with relabelling for each tolerance.
fn two(out: &mut Records, u: &Mat4) {
    let (q, residual) = detect::majorana_map2(u);
    out.floats(tag::TWO, &[&entries(u), q.as_flattened(), &[residual]]);
    out.words(&[u64::from(detect::number_conserving4(&q)), word(detect::offdiag4(u))]);
    for relabel in [false, true] {
        for tol in TOLERANCES {
            let (code, residual) = class(u, tol, relabel);
            out.words(&[code, word(residual)]);
        }
    }
}

/// The class by the rule and, 16 times, that of the original; and the residual. The two agree
/// wherever they are to.
fn class(u: &Mat4, tol: f64, relabel: bool) -> (u64, f64) {
    let ours = rule::classify(u, tol, relabel);
    let rust = rust_class(u, tol, relabel);
    let ours_code = code(ours.kind, ours.swap);
    if rust != NOT_COMPARED {
        let residual = original_class(u, tol, relabel).residual;
        assert!(
            rust == ours_code && same(residual, ours.residual),
            "rule {ours:?} and original {rust} {residual} at {tol}, {relabel}: {u:?}"
        );
    }
    (ours_code + 8 * u64::from(ours.angled) + 16 * rust, ours.residual)
}

fn code(kind: Kind, swap: bool) -> u64 {
    let kind = match kind {
        Kind::Diag => 0,
        Kind::Interaction => 1,
        Kind::Match => 2,
        Kind::NonGaussian => 3,
    };
    kind + 4 * u64::from(swap)
}

/// The original's class, where document 01 compares it: where each block whose off-diagonal test
/// passes is a gate's, the tolerance is at least 1e-12 and |g| does not lie between half and twice it.
fn rust_class(u: &Mat4, tol: f64, relabel: bool) -> u64 {
    let unsure = |v: &Mat4| {
        let g = detect::diag_phases(v).2.abs();
        let near = tol / 2.0 <= g && g <= 2.0 * tol;
        detect::offdiag4(v) <= tol && (tol < 1e-12 || near || !unit_diagonal(v))
    };
    if unsure(u) || (relabel && unsure(&rule::swapped(u))) {
        return NOT_COMPARED;
    }
    let c = original_class(u, tol, relabel);
    let kind = match c.kind {
        detect::Kind::Diag if c.g.abs() <= tol => Kind::Diag,
        detect::Kind::Diag => Kind::Interaction,
        detect::Kind::Match => Kind::Match,
        detect::Kind::NonGaussian => Kind::NonGaussian,
    };
    code(kind, c.swap)
}

fn original_class(u: &Mat4, tol: f64, relabel: bool) -> detect::Class {
    detect::classify2(u, &DetectOptions { tol, relabel_swaps: relabel, reorder: false })
}

/// Whether the entries on the diagonal are of magnitude 1, as those of a gate: elsewhere the
/// original, that looks at angles alone, need not agree with the rule.
fn unit_diagonal(u: &Mat4) -> bool {
    rule::diagonal(u).iter().all(|x| (x.norm_sqr() - 1.0).abs() < 1e-9)
}

/// A complex number.
fn c(re: f64, im: f64) -> Complex64 {
    Complex64::new(re, im)
}

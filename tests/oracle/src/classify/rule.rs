//! Document 01's rule for diagonal blocks, in the order of 000's `classify2`.
//! Norms, products and maps are the original's own.

use original::access::detect::access as detect;
use original::gate::Mat4;
use original::Complex64 as C;

/// What a block is.
#[derive(Clone, Copy, Debug, PartialEq, Eq)]
pub enum Kind {
    Diag,
    Interaction,
    Match,
    NonGaussian,
}

/// The class of a block.
#[derive(Clone, Copy, Debug)]
pub struct Class {
    pub kind: Kind,
    pub swap: bool,
    pub residual: f64,
    /// An off-diagonal test that was made passed.
    pub angled: bool,
}

/// p_a, p_b and w of a diagonal.
pub fn phases(d: [C; 4]) -> [C; 3] {
    let w = (d[0] * d[3]) * (d[1] * d[2]).conj();
    [d[2] * d[0].conj(), d[1] * d[0].conj(), w]
}

/// p divided by its norm; (1, 0) if the norm is not finite and above zero.
pub fn unit(p: C) -> C {
    let norm = (p.re * p.re + p.im * p.im).sqrt();
    if norm.is_finite() && norm > 0.0 {
        C::new(p.re / norm, p.im / norm)
    } else {
        C::new(1.0, 0.0)
    }
}

/// The rotation of a wire with the phase p, if it gets one: 000's `phase_q` of the unit.
pub fn rotation(p: C) -> Option<[f64; 4]> {
    let u = unit(p);
    match u.im == 0.0 && u.re > 0.0 {
        true => None,
        false => Some([u.re, -u.im, u.im, u.re]),
    }
}

/// Whether the phase counts as none.
fn phase_none(tol: f64, w: C) -> bool {
    w.re > 0.0 && w.im.abs() <= tol * w.re
}

/// The diagonal of a matrix.
pub fn diagonal(u: &Mat4) -> [C; 4] {
    std::array::from_fn(|k| u[k][k])
}

/// SWAP times a matrix.
pub fn swapped(u: &Mat4) -> Mat4 {
    let (o, i) = (C::new(0.0, 0.0), C::new(1.0, 0.0));
    detect::mul4(&[[i, o, o, o], [o, o, i, o], [o, i, o, o], [o, o, o, i]], u)
}

/// The class of a block.
pub fn classify(u: &Mat4, tol: f64, relabel: bool) -> Class {
    let diag_u = detect::offdiag4(u) <= tol;
    let none = |v: &Mat4| phase_none(tol, phases(diagonal(v))[2]);
    let mut angled = diag_u;
    let class = |kind, swap, residual, angled| Class { kind, swap, residual, angled };
    if diag_u && none(u) {
        return class(Kind::Diag, false, 0.0, angled);
    }
    let r0 = detect::majorana_map2(u).1;
    if r0 <= tol {
        return class(Kind::Match, false, r0, angled);
    }
    let (mut residual, mut diag_v) = (r0, false);
    if relabel {
        let v = swapped(u);
        diag_v = detect::offdiag4(&v) <= tol;
        angled |= diag_v;
        if diag_v && none(&v) {
            return class(Kind::Diag, true, 0.0, angled);
        }
        let r1 = detect::majorana_map2(&v).1;
        if r1 <= tol {
            return class(Kind::Match, true, r1, angled);
        }
        residual = r0.min(r1);
    }
    if diag_u || diag_v {
        return class(Kind::Interaction, !diag_u, 0.0, angled);
    }
    class(Kind::NonGaussian, false, residual, angled)
}

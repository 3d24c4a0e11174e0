//! The gates of a list: their names, and the matrices of those that have no code on a tape. The matrices are made as the
//! original's `matrix_1q` and `matrix_2q` make them, operation by operation, so that their bits are the same.

use std::f64::consts::{FRAC_PI_4, PI};

/// A complex number: real part, imaginary part.
pub type Complex = (f64, f64);

/// How a gate stands on a tape.
pub enum Form {
    /// By a code of its own.
    Code(u8),
    /// As the 2 by 2 matrix of its angles.
    Given1(fn(&[f64]) -> [Complex; 4]),
    /// As the 4 by 4 matrix of its angles.
    Given2(fn(&[f64]) -> [Complex; 16]),
}

/// One kind of gate. Names are read without regard to case.
pub struct Kind {
    pub name: &'static str,
    /// A second name (OpenQASM's), or the name again.
    pub alias: &'static str,
    pub qubits: usize,
    pub angles: usize,
    pub form: Form,
}

const fn kind(
    name: &'static str,
    alias: &'static str,
    qubits: usize,
    angles: usize,
    form: Form,
) -> Kind {
    Kind { name, alias, qubits, angles, form }
}

/// Every gate of the original.
pub const KINDS: [Kind; 23] = [
    kind("i", "id", 1, 0, Form::Code(0x00)),
    kind("h", "h", 1, 0, Form::Code(0x01)),
    kind("x", "x", 1, 0, Form::Code(0x02)),
    kind("y", "y", 1, 0, Form::Code(0x03)),
    kind("z", "z", 1, 0, Form::Code(0x04)),
    kind("s", "s", 1, 0, Form::Code(0x05)),
    kind("sdg", "sdg", 1, 0, Form::Code(0x06)),
    kind("sx", "sx", 1, 0, Form::Code(0x07)),
    kind("sxdg", "sxdg", 1, 0, Form::Code(0x08)),
    kind("t", "t", 1, 0, Form::Given1(|_| diagonal(ONE, polar(1.0, FRAC_PI_4)))),
    kind("tdg", "tdg", 1, 0, Form::Given1(|_| diagonal(ONE, polar(1.0, -FRAC_PI_4)))),
    kind("rx", "rx", 1, 1, Form::Given1(|t| rx(t[0]))),
    kind("ry", "ry", 1, 1, Form::Given1(|t| ry(t[0]))),
    kind("rz", "rz", 1, 1, Form::Given1(|t| rz(t[0]))),
    kind("phase", "p", 1, 1, Form::Given1(|t| diagonal(ONE, polar(1.0, t[0])))),
    kind("u", "u3", 1, 3, Form::Given1(|t| u(t[0], t[1], t[2]))),
    kind("cnot", "cx", 2, 0, Form::Code(0x10)),
    kind("cz", "cz", 2, 0, Form::Code(0x11)),
    kind("swap", "swap", 2, 0, Form::Code(0x12)),
    kind("iswap", "iswap", 2, 0, Form::Code(0x13)),
    kind("iswapdg", "iswapdg", 2, 0, Form::Code(0x14)),
    kind("cphase", "cp", 2, 1, Form::Given2(|t| cphase(t[0]))),
    kind("ccx", "toffoli", 3, 0, Form::Code(0x20)),
];

/// The kind of a name.
pub fn named(name: &str) -> Option<&'static Kind> {
    let same = |other: &str| other.eq_ignore_ascii_case(name);
    KINDS.iter().find(|k| same(k.name) || same(k.alias))
}

/// The kind of a tape's code, `None` for given matrices and for what is no code.
pub fn coded(code: u8) -> Option<&'static Kind> {
    KINDS.iter().find(|k| matches!(k.form, Form::Code(c) if c == code))
}

/// Whether a gate of this code only moves and turns bits: I X Y Z S Sdg Swap ISwap ISwapdg. A tape of such gates is a
/// register tape.
pub fn is_register(code: u8) -> bool {
    matches!(code, 0x00 | 0x02..=0x06 | 0x12..=0x14)
}

/// Reads an angle in radians: a number, or a part of pi such as `pi`, `-pi/2`, `3*pi/8`.
pub fn angle(word: &str) -> Option<f64> {
    let lower = word.to_ascii_lowercase();
    let Some((before, after)) = lower.split_once("pi") else { return number(word) };
    let factor = match before {
        "" | "+" => 1.0,
        "-" => -1.0,
        _ => number(before.strip_suffix('*')?)?,
    };
    let divisor = if after.is_empty() { 1.0 } else { number(after.strip_prefix('/')?)? };
    Some(factor * PI / divisor).filter(|x| x.is_finite())
}

/// Reads a finite number.
pub fn number(word: &str) -> Option<f64> {
    word.parse().ok().filter(|x: &f64| x.is_finite())
}

/// How far a given matrix may be from a unitary one before the tool warns of it.
pub const UNITARY: f64 = 1e-9;

/// How far a given matrix is from a unitary one: the largest entry of U times its adjoint, less the identity. The entries
/// stand row by row, real before imaginary; a gate without entries is no given one.
pub fn off_unitary(entries: &[f64]) -> f64 {
    let dim = if entries.len() == 8 { 2 } else { 4 };
    let rows: Vec<&[f64]> = entries.chunks(2 * dim).collect();
    let off = |(a, x): (usize, &&[f64]), (b, y): (usize, &&[f64])| {
        let pairs = || x.chunks(2).zip(y.chunks(2));
        let re: f64 = pairs().map(|(p, q)| p[0] * q[0] + p[1] * q[1]).sum();
        let im: f64 = pairs().map(|(p, q)| p[1] * q[0] - p[0] * q[1]).sum();
        (re - f64::from(u8::from(a == b))).hypot(im)
    };
    let all = rows.iter().enumerate();
    let all = all.flat_map(|r| rows.iter().enumerate().map(move |s| off(r, s)));
    // A NaN is as far as can be.
    all.fold(0.0, |most, x| if x.is_nan() { f64::INFINITY } else { x.max(most) })
}

const ZERO: Complex = (0.0, 0.0);
const ONE: Complex = (1.0, 0.0);

fn polar(r: f64, angle: f64) -> Complex {
    (r * angle.cos(), r * angle.sin())
}

fn diagonal(d0: Complex, d1: Complex) -> [Complex; 4] {
    [d0, ZERO, ZERO, d1]
}

fn rx(t: f64) -> [Complex; 4] {
    let (s, c) = (t / 2.0).sin_cos();
    [(c, 0.0), (0.0, -s), (0.0, -s), (c, 0.0)]
}

fn ry(t: f64) -> [Complex; 4] {
    let (s, c) = (t / 2.0).sin_cos();
    [(c, 0.0), (-s, 0.0), (s, 0.0), (c, 0.0)]
}

fn rz(t: f64) -> [Complex; 4] {
    diagonal(polar(1.0, -t / 2.0), polar(1.0, t / 2.0))
}

fn u(theta: f64, phi: f64, lambda: f64) -> [Complex; 4] {
    let (s, c) = (theta / 2.0).sin_cos();
    let (re, im) = polar(s, lambda);
    [(c, 0.0), (-re, -im), polar(s, phi), polar(c, phi + lambda)]
}

fn cphase(t: f64) -> [Complex; 16] {
    let mut m = [ZERO; 16];
    m[0] = ONE;
    m[5] = ONE;
    m[10] = ONE;
    m[15] = polar(1.0, t);
    m
}

#[cfg(test)]
mod tests {
    use super::*;

    #[test]
    fn angles() {
        assert_eq!(angle("0.25"), Some(0.25));
        assert_eq!(angle("-pi/2"), Some(-PI / 2.0));
        assert_eq!(angle("3*PI/8"), Some(3.0 * PI / 8.0));
        for bad in ["", "nan", "inf", "1e999", "pi/0", "pi/", "*pi", "2pi", "pi*2", "0.2.5", "O.25"]
        {
            assert_eq!(angle(bad), None, "{bad}");
        }
    }

    #[test]
    fn names_are_unique() {
        let all: Vec<_> = KINDS.iter().flat_map(|k| [k.name, k.alias]).collect();
        for k in &KINDS {
            let count = |x: &str| all.iter().filter(|y| **y == x).count();
            assert!(count(k.name) == if k.name == k.alias { 2 } else { 1 }, "{}", k.name);
        }
        assert_eq!(named("ISwap").map(|k| k.name), Some("iswap"));
        assert_eq!(named("CX").map(|k| k.name), Some("cnot"));
        assert!(named("foo").is_none());
    }

    #[test]
    fn given_matrices_are_unitary() {
        for k in &KINDS {
            let t = [0.3, -1.1, 2.5];
            let matrix: Vec<Complex> = match k.form {
                Form::Code(_) => continue,
                Form::Given1(f) => f(&t[..k.angles]).to_vec(),
                Form::Given2(f) => f(&t[..k.angles]).to_vec(),
            };
            let entries: Vec<f64> = matrix.iter().flat_map(|z| [z.0, z.1]).collect();
            assert!(off_unitary(&entries) < 1e-15, "{}", k.name);
        }
    }

    #[test]
    fn how_far_from_unitary() {
        assert_eq!(off_unitary(&[]), 0.0);
        assert_eq!(off_unitary(&[0.0, 0.0, 0.0, 1.0, 0.0, -1.0, 0.0, 0.0]), 0.0);
        assert_eq!(off_unitary(&[1.0, 0.0, 0.0, 0.0, 1.0, 0.0, 0.0, 0.0]), 1.0);
        assert_eq!(off_unitary(&[2.0, 0.0, 0.0, 0.0, 0.0, 0.0, 1.0, 0.0]), 3.0);
        assert_eq!(off_unitary(&[f64::NAN; 32]), f64::INFINITY);
    }
}

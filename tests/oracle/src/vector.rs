//! Another simulator: the plain state vector, with gate matrices of its own.
//! Qubit q is bit q of a basis index.

use crate::complex::{complex, Complex};
use original::gate::Gate;
use std::f64::consts::{FRAC_1_SQRT_2, FRAC_PI_4};

/// The widest register it takes.
pub const WIDEST: usize = 12;

/// The number of absolute value 1 and the given angle.
fn turn(angle: f64) -> Complex {
    complex(angle.cos(), angle.sin())
}

const ZERO: Complex = complex(0.0, 0.0);
const ONE: Complex = complex(1.0, 0.0);
const MINUS: Complex = complex(-1.0, 0.0);
const IMAG: Complex = complex(0.0, 1.0);
const MINUS_IMAG: Complex = complex(0.0, -1.0);

type Matrix = [[Complex; 2]; 2];

/// The state of a register.
pub struct Vector {
    n: usize,
    amplitudes: Vec<Complex>,
}

impl Vector {
    /// The state of the gates applied to all zeros.
    pub fn run(n: usize, gates: &[Gate]) -> Vector {
        assert!(n <= WIDEST, "a state vector of at most {WIDEST} qubits");
        let mut v = Vector { n, amplitudes: vec![ZERO; 1 << n] };
        v.amplitudes[0] = ONE;
        for g in gates {
            v.apply(g);
        }
        v
    }

    /// The expectation of the product of Z over a list; pairs cancel.
    pub fn product(&self, qs: &[usize]) -> f64 {
        let odd = qs.iter().fold(0, |odd, q| odd ^ 1 << q);
        let sign = |x: usize| [1.0, -1.0][(x & odd).count_ones() as usize % 2];
        (0..self.amplitudes.len()).map(|x| sign(x) * self.probability(x)).sum()
    }

    /// The probability that the listed qubits read the listed bits.
    pub fn marginal(&self, qs: &[usize], bits: &[bool]) -> f64 {
        let of = |bit: bool| {
            let with = qs.iter().zip(bits).filter(|x| *x.1 == bit);
            with.fold(0, |mask: usize, x| mask | 1 << x.0)
        };
        let (zeros, ones) = (of(false), of(true));
        let meets = |x: usize| x & zeros == 0 && x & ones == ones;
        (0..self.amplitudes.len()).filter(|&x| meets(x)).map(|x| self.probability(x)).sum()
    }

    /// The probability of a basis index.
    pub fn probability(&self, x: usize) -> f64 {
        let a = self.amplitudes[x];
        a.re * a.re + a.im * a.im
    }

    fn apply(&mut self, g: &Gate) {
        match *g {
            Gate::Cnot(c, t) => self.controlled(1 << c, t, X),
            Gate::Cz(a, b) => self.controlled(1 << a, b, phase(MINUS)),
            Gate::CPhase(a, b, t) => self.controlled(1 << a, b, phase(turn(t))),
            Gate::Ccx(a, b, t) => self.controlled(1 << a | 1 << b, t, X),
            Gate::Swap(a, b) => self.exchange(a, b, ONE),
            Gate::ISwap(a, b) => self.exchange(a, b, IMAG),
            Gate::ISwapdg(a, b) => self.exchange(a, b, MINUS_IMAG),
            _ => self.controlled(0, g.qubits()[0], one_qubit(g)),
        }
    }

    /// Applies a matrix to one qubit where all control bits are set.
    fn controlled(&mut self, controls: usize, q: usize, m: Matrix) {
        for x in 0..1 << self.n {
            let y = x | 1 << q;
            if x != y && x & controls == controls {
                let (a, b) = (self.amplitudes[x], self.amplitudes[y]);
                self.amplitudes[x] = m[0][0] * a + m[0][1] * b;
                self.amplitudes[y] = m[1][0] * a + m[1][1] * b;
            }
        }
    }

    /// Exchanges two qubits; where they differ, times a factor.
    fn exchange(&mut self, a: usize, b: usize, factor: Complex) {
        for x in 0..1usize << self.n {
            if x >> a & 1 == 1 && x >> b & 1 == 0 {
                let y = x ^ (1 << a | 1 << b);
                let (at_x, at_y) = (self.amplitudes[x], self.amplitudes[y]);
                self.amplitudes[x] = factor * at_y;
                self.amplitudes[y] = factor * at_x;
            }
        }
    }
}

const X: Matrix = [[ZERO, ONE], [ONE, ZERO]];

fn phase(p: Complex) -> Matrix {
    [[ONE, ZERO], [ZERO, p]]
}

/// The matrix of a one-qubit gate.
fn one_qubit(g: &Gate) -> Matrix {
    let h = complex(FRAC_1_SQRT_2, 0.0);
    let (half, flah) = (complex(0.5, 0.5), complex(0.5, -0.5));
    match *g {
        Gate::I(_) => phase(ONE),
        Gate::H(_) => [[h, h], [h, MINUS * h]],
        Gate::X(_) => X,
        Gate::Y(_) => [[ZERO, MINUS_IMAG], [IMAG, ZERO]],
        Gate::Z(_) => phase(MINUS),
        Gate::S(_) => phase(IMAG),
        Gate::Sdg(_) => phase(MINUS_IMAG),
        Gate::T(_) => phase(turn(FRAC_PI_4)),
        Gate::Tdg(_) => phase(turn(-FRAC_PI_4)),
        Gate::Sx(_) => [[half, flah], [flah, half]],
        Gate::Sxdg(_) => [[flah, half], [half, flah]],
        Gate::Rx(_, t) => rotation(t, MINUS_IMAG, MINUS_IMAG),
        Gate::Ry(_, t) => rotation(t, MINUS, ONE),
        Gate::Rz(_, t) => [[turn(-t / 2.0), ZERO], [ZERO, turn(t / 2.0)]],
        Gate::Phase(_, t) => phase(turn(t)),
        Gate::U(_, t, ph, la) => {
            let m = rotation(t, MINUS * turn(la), turn(ph));
            [m[0], [m[1][0], turn(ph + la) * m[1][1]]]
        }
        _ => panic!("{g:?} acts on several qubits"),
    }
}

/// Cosines of half the angle on the diagonal, sines times factors beside it.
fn rotation(t: f64, right: Complex, left: Complex) -> Matrix {
    let (sin, cos) = (t / 2.0).sin_cos();
    let (s, c) = (complex(sin, 0.0), complex(cos, 0.0));
    [[c, right * s], [left * s, c]]
}

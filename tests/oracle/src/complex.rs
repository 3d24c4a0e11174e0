//! Complex numbers of floats.

use crate::exact::number::Number;
use crate::rng::Rng;
use std::fmt;
use std::ops::{Add, Mul, Neg, Sub};

#[derive(Clone, Copy, PartialEq)]
pub struct Complex {
    pub re: f64,
    pub im: f64,
}

pub const fn complex(re: f64, im: f64) -> Complex {
    Complex { re, im }
}

impl fmt::Debug for Complex {
    fn fmt(&self, f: &mut fmt::Formatter<'_>) -> fmt::Result {
        write!(f, "{:?}{:+?}i", self.re, self.im)
    }
}

impl Add for Complex {
    type Output = Complex;
    fn add(self, y: Complex) -> Complex {
        complex(self.re + y.re, self.im + y.im)
    }
}

impl Sub for Complex {
    type Output = Complex;
    fn sub(self, y: Complex) -> Complex {
        complex(self.re - y.re, self.im - y.im)
    }
}

impl Mul for Complex {
    type Output = Complex;
    fn mul(self, y: Complex) -> Complex {
        complex(self.re * y.re - self.im * y.im, self.re * y.im + self.im * y.re)
    }
}

impl Neg for Complex {
    type Output = Complex;
    fn neg(self) -> Complex {
        complex(-self.re, -self.im)
    }
}

impl Complex {
    /// The larger of the two parts' absolute values.
    pub fn size(self) -> f64 {
        self.re.abs().max(self.im.abs())
    }
}

/// So the lists and the state vector of `exact` can be had at any angle.
impl Number for Complex {
    const ZERO: Complex = complex(0.0, 0.0);
    const ONE: Complex = complex(1.0, 0.0);
    const I: Complex = complex(0.0, 1.0);

    fn angle(rng: &mut Rng) -> [Complex; 2] {
        let (sin, cos) = rng.angle().sin_cos();
        [cos, sin].map(|x| complex(x, 0.0))
    }

    fn conjugate(self) -> Option<Complex> {
        Some(complex(self.re, -self.im))
    }
}

//! Numbers modulo a prime that is 3 modulo 4, with i adjoined: pairs of a real and an imaginary part, and each has its conjugate.

use super::number::{Field, Number};
use super::residues::Residue;
use crate::rng::Rng;
use std::fmt;
use std::ops::{Add, Mul, Neg, Sub};

#[derive(Clone, Copy, PartialEq)]
pub struct Pair<const P: u64> {
    re: Residue<P>,
    im: Residue<P>,
}

const fn pair<const P: u64>(re: Residue<P>, im: Residue<P>) -> Pair<P> {
    Pair { re, im }
}

const fn real<const P: u64>(re: Residue<P>) -> Pair<P> {
    pair(re, Residue::ZERO)
}

impl<const P: u64> Add for Pair<P> {
    type Output = Self;
    fn add(self, y: Self) -> Self {
        pair(self.re + y.re, self.im + y.im)
    }
}

impl<const P: u64> Sub for Pair<P> {
    type Output = Self;
    fn sub(self, y: Self) -> Self {
        pair(self.re - y.re, self.im - y.im)
    }
}

impl<const P: u64> Mul for Pair<P> {
    type Output = Self;
    fn mul(self, y: Self) -> Self {
        pair(self.re * y.re - self.im * y.im, self.re * y.im + self.im * y.re)
    }
}

impl<const P: u64> Neg for Pair<P> {
    type Output = Self;
    fn neg(self) -> Self {
        pair(-self.re, -self.im)
    }
}

impl<const P: u64> fmt::Debug for Pair<P> {
    fn fmt(&self, f: &mut fmt::Formatter<'_>) -> fmt::Result {
        write!(f, "{:?}+{:?}i", self.re, self.im)
    }
}

impl<const P: u64> Number for Pair<P> {
    const ZERO: Self = real(Residue::ZERO);
    const ONE: Self = real(Residue::ONE);
    const I: Self = {
        assert!(P % 4 == 3, "-1 is a square modulo other primes");
        pair(Residue::ZERO, Residue::ONE)
    };

    fn angle(rng: &mut Rng) -> [Self; 2] {
        Residue::angle(rng).map(real)
    }

    fn conjugate(self) -> Option<Self> {
        Some(pair(self.re, -self.im))
    }
}

impl<const P: u64> Field for Pair<P> {
    const HALF: Self = real(Residue::HALF);

    /// The square of the absolute value is zero for zero alone, since -1 is no square.
    fn inverse(self) -> Self {
        let square = self.re * self.re + self.im * self.im;
        pair(self.re, -self.im) * real(square.inverse())
    }

    fn size(self) -> u64 {
        P * self.im.size() + self.re.size()
    }

    fn real(self) -> Self {
        real(self.re)
    }
}

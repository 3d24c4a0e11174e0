//! Numbers modulo a prime. Where the prime is 1 modulo 4, i is one of them: a number whose square is -1.

use super::number::{Field, Number};
use crate::rng::Rng;
use std::fmt;
use std::ops::{Add, Mul, Neg, Sub};

/// A number modulo P, an odd prime below 2^32; from 0 to P - 1.
#[derive(Clone, Copy, PartialEq)]
pub struct Residue<const P: u64>(u64);

impl<const P: u64> Residue<P> {
    pub const ZERO: Self = Residue(0);
    pub const ONE: Self = Residue(1);
    pub const HALF: Self = Residue(P.div_ceil(2));

    const fn power(self, mut exponent: u64) -> Self {
        let (mut power, mut square) = (1, self.0);
        while exponent > 0 {
            if exponent % 2 == 1 {
                power = power * square % P;
            }
            square = square * square % P;
            exponent /= 2;
        }
        Residue(power)
    }

    /// A number whose square is -1.
    const fn root() -> Self {
        assert!(P % 4 == 1, "-1 is a square modulo such primes alone");
        let mut base = 2;
        loop {
            let root = Residue::<P>(base).power((P - 1) / 4);
            if root.0 * root.0 % P == P - 1 {
                return root;
            }
            base += 1;
        }
    }

    /// One over a number that is not zero, by Fermat's theorem.
    pub fn inverse(self) -> Self {
        assert!(self != Self::ZERO, "one over zero");
        self.power(P - 2)
    }

    /// How far from zero, either way.
    pub fn size(self) -> u64 {
        self.0.min(P - self.0)
    }

    /// Two numbers whose squares have the sum 1, by the half angle's tangent.
    pub fn angle(rng: &mut Rng) -> [Self; 2] {
        loop {
            let t = Residue(rng.word() % P);
            let whole = Self::ONE + t * t;
            if whole != Self::ZERO {
                let part = whole.inverse();
                return [(Self::ONE - t * t) * part, (t + t) * part];
            }
        }
    }
}

impl<const P: u64> Add for Residue<P> {
    type Output = Self;
    fn add(self, y: Self) -> Self {
        Residue((self.0 + y.0) % P)
    }
}

impl<const P: u64> Sub for Residue<P> {
    type Output = Self;
    fn sub(self, y: Self) -> Self {
        self + -y
    }
}

impl<const P: u64> Mul for Residue<P> {
    type Output = Self;
    fn mul(self, y: Self) -> Self {
        Residue(self.0 * y.0 % P)
    }
}

impl<const P: u64> Neg for Residue<P> {
    type Output = Self;
    fn neg(self) -> Self {
        Residue((P - self.0) % P)
    }
}

impl<const P: u64> fmt::Debug for Residue<P> {
    fn fmt(&self, f: &mut fmt::Formatter<'_>) -> fmt::Result {
        write!(f, "{}", self.0)
    }
}

impl<const P: u64> Number for Residue<P> {
    const ZERO: Self = Self::ZERO;
    const ONE: Self = Self::ONE;
    const I: Self = Self::root();

    fn angle(rng: &mut Rng) -> [Self; 2] {
        Self::angle(rng)
    }

    fn conjugate(self) -> Option<Self> {
        None
    }
}

impl<const P: u64> Field for Residue<P> {
    const HALF: Self = Self::HALF;

    fn inverse(self) -> Self {
        self.inverse()
    }

    fn size(self) -> u64 {
        self.size()
    }

    fn real(self) -> Self {
        self
    }
}

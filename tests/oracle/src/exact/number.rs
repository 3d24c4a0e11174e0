//! Numbers: what quantum mechanics asks of them, and what the engine's formula asks besides.

use crate::rng::Rng;
use std::fmt::Debug;
use std::ops::{Add, Mul, Neg, Sub};

/// Numbers with i.
pub trait Number:
    Copy
    + Debug
    + PartialEq
    + Add<Output = Self>
    + Sub<Output = Self>
    + Mul<Output = Self>
    + Neg<Output = Self>
{
    const ZERO: Self;
    const ONE: Self;
    const I: Self;

    /// Cosine and sine of a random angle: two numbers whose squares have the sum 1.
    fn angle(rng: &mut Rng) -> [Self; 2];

    /// The conjugate; none where i is a number like any other, so that nothing tells it from -i.
    fn conjugate(self) -> Option<Self>;
}

/// Numbers that the formula can work with: it divides, it looks for the largest, and it takes real parts.
pub trait Field: Number {
    const HALF: Self;

    /// One over a number that is not zero.
    fn inverse(self) -> Self;

    /// Only that of zero is 0; nothing else is asked of it.
    fn size(self) -> u64;

    /// The number itself where there is no conjugate.
    fn real(self) -> Self;
}

pub fn sum<N: Number>(numbers: impl Iterator<Item = N>) -> N {
    numbers.fold(N::ZERO, |sum, x| sum + x)
}

/// The number, or what must be added to it for zero.
pub fn signed<N: Number>(minus: bool, x: N) -> N {
    match minus {
        true => -x,
        false => x,
    }
}

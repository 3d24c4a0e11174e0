//! Stand-in for the crate `rand`: the traits and methods that the original
//! engine names. The draws come from a list, so that a sample is a function of
//! its list.

use std::ops::Range;

/// A source of draws.
pub trait RngCore {
    /// The next draw, a number from 0 and below 1.
    fn next_draw(&mut self) -> f64;
}

/// The methods that the original calls on a source.
pub trait Rng: RngCore {
    /// The next draw.
    fn random<T: From<f64>>(&mut self) -> T {
        T::from(self.next_draw())
    }
    /// True with probability `p`.
    fn random_bool(&mut self, p: f64) -> bool {
        self.next_draw() < p
    }
    /// A number of the range.
    fn random_range(&mut self, range: Range<usize>) -> usize {
        range.start + (self.next_draw() * range.len() as f64) as usize
    }
}

impl<R: RngCore + ?Sized> Rng for R {}

/// Draws handed out one after the other.
pub struct Draws<'a>(pub std::slice::Iter<'a, f64>);

impl RngCore for Draws<'_> {
    fn next_draw(&mut self) -> f64 {
        *self.0.next().expect("the list of draws is too short")
    }
}

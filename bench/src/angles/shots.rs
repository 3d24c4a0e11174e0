//! Shots, bit by bit, beside their draws.

use super::seen::Count::*;
use super::values::{Beside, CLOSE};
use super::{All, PLACES, SHOT_BITS};
use oracle::answer::Answer;
use oracle::query::Query;
use oracle::rng::Rng;

/// Shots of each list.
const SHOTS: usize = 4;
/// What was read must have this chance at least for the next bit to be held against its draw.
const LEAST: f64 = 1e-6;

impl Beside<'_> {
    /// A draw gives 1 exactly if it is not below the chance of 0 after what was read of earlier modes.
    pub fn shots(&self, all: &mut All, rng: &mut Rng, on: &[usize]) {
        let draws: Vec<f64> = (0..SHOTS * on.len()).map(|_| rng.unit()).collect();
        let (answer, kept) = self.ran.slice.ask(&Query::Sample(SHOTS, draws.clone()));
        all.tallies[PLACES].count(kept, || (self.told)("places of a sample".into()));
        let Answer::Shots(shots) = answer else {
            return all.tallies[SHOT_BITS].count(false, || (self.told)("no shots".into()));
        };
        for (shot, draws) in shots.iter().zip(draws.chunks(on.len())) {
            let mut read = vec![];
            for (&q, &draw) in on.iter().zip(draws) {
                let bit = shot >> q & 1 == 1;
                let before = self.vector.marginal(&read).re;
                read.push((q, false));
                let zero = self.vector.marginal(&read).re / before;
                if before <= LEAST || (draw - zero).abs() <= CLOSE {
                    all.seen.note(NearDraws, 1);
                } else {
                    all.tallies[SHOT_BITS].count(bit == (draw >= zero), || {
                        (self.told)(format!("a shot reads {read:?}, by {draw} and {zero}"))
                    });
                }
                read.last_mut().expect("what was pushed").1 = bit;
            }
        }
    }
}

//! A shot depends on the state and on its own n draws: the others are replaced, and it must stay.

use crate::compare::Tally;
use crate::slice::Slice;
use oracle::answer::Answer;
use oracle::query::Query;
use oracle::rng::Rng;

/// Shots of a sample.
const SHOTS: usize = 4;
/// The largest float below 1.
const LARGEST: f64 = 1.0 - f64::EPSILON / 2.0;

pub struct Draws {
    stay: Tally,
    /// Shots that get other draws of their own, and those of them that change.
    own: usize,
    changed: usize,
}

impl Draws {
    pub fn new() -> Draws {
        Draws { stay: Tally::new("own draws"), own: 0, changed: 0 }
    }

    /// One shot of a sample is looked at: once with other draws for the others, once with other draws of its own, where the others must stay.
    pub fn add(&mut self, rng: &mut Rng, slice: &Slice) {
        let n = slice.n;
        let draws = some(rng, SHOTS * n);
        let shot = rng.below(SHOTS);
        let own = shot * n..(shot + 1) * n;
        let mut others = some(rng, SHOTS * n);
        others[own.clone()].copy_from_slice(&draws[own.clone()]);
        let mut other = draws.clone();
        other[own].copy_from_slice(&some(rng, n));
        let [first, others, other] = [&draws, &others, &other].map(|draws| shots(slice, draws));
        let rest = |shots: &[u128]| [&shots[..shot], &shots[shot + 1..]].concat();
        let well = first[shot] == others[shot] && rest(&first) == rest(&other);
        self.stay.count(well, || format!(" shot {shot} of {SHOTS} on {n} modes"));
        self.own += 1;
        self.changed += usize::from(first[shot] != other[shot]);
    }

    /// Prints the counts; whether shots often change with their own draws.
    pub fn end(self) -> bool {
        let Draws { stay, own, changed } = self;
        let well = stay.end();
        println!("of {own} shots with other draws of their own {changed} change");
        well && 4 * changed > own
    }
}

/// Numbers that pass 22.
fn some(rng: &mut Rng, count: usize) -> Vec<f64> {
    let draw = |rng: &mut Rng| match rng.chance(1, 8) {
        true => rng.pick(&[0.0, -0.0, 0.5, f64::from_bits(1), LARGEST]),
        false => rng.unit(),
    };
    (0..count).map(|_| draw(rng)).collect()
}

fn shots(slice: &Slice, draws: &[f64]) -> Vec<u128> {
    match slice.ask(&Query::Sample(SHOTS, draws.to_vec())) {
        (Answer::Shots(shots), true) => shots,
        (other, _) => panic!("good draws give{other}"),
    }
}

//! Random gates, matchgates and others: nothing is left over of their maps exactly if their determinants say that they are matchgates.

use super::gates::{any2, matchgate2, nearly};
use super::judge;
use super::maps;
use super::matrix::Unitary;
use super::number::Field;
use super::seen::{Count::*, Seen};
use crate::rng::Rng;

pub fn compare<N: Field>(seen: &mut Seen, rng: &mut Rng) {
    let made = rng.chance(1, 2);
    let one: Unitary<N, 2> = if made { matchgate2(rng) } else { any2(rng) };
    let well = judge::of_one(&one.matrix, |x| x == N::ZERO);
    note(seen, well, maps::of_one(&one).whole, &one);
    seen.check(Matchgates, well || !made, || format!("no matchgate by its zeros: {one:?}"));
    let (made, two) = nearly::<N>(rng);
    let well = judge::of_two(&two.matrix, |x| x == N::ZERO);
    note(seen, well, maps::of_two(&two).whole, &two);
    seen.check(Matchgates, well || !made, || format!("no matchgate by its determinants: {two:?}"));
}

fn note<N: Field, const W: usize>(seen: &mut Seen, well: bool, whole: bool, u: &Unitary<N, W>) {
    seen.note(if well { Matchgates } else { Others }, 1);
    seen.check(Matchgates, well == whole, || {
        format!("{whole} by its map, by its determinants {well}: {u:?}")
    });
}

//! The tables of times.

use crate::clock::{times, Times};
use crate::pieces::{calls, leaves, plain, tapes, Piece};
use crate::rows::Row;
use oracle::rng::Rng;
use std::hint::black_box;

/// Rounds of each side.
const ROUNDS: usize = 200;

/// Leaves and calls on states.
pub fn small(seed: u64) {
    head();
    let rng = &mut Rng::new(seed);
    let each = &mut |piece: Piece| times(ROUNDS, piece).print();
    leaves::pieces(rng, each);
    calls::pieces(rng, each);
}

/// `compile` on each tape, with a warm heap.
pub fn compiles(seed: u64) {
    assert!(tapes::compiles_agree(&mut Rng::new(seed)), "the sides agree");
    warm_heap();
    head();
    let (mut medians, mut leasts) = (Vec::new(), Vec::new());
    tapes::compiles(&mut Rng::new(seed), "", &mut |piece| {
        let times = times(ROUNDS, piece);
        times.print();
        medians.push(times.median);
        leasts.push(times.least);
    });
    if let [Some(median), Some(least)] = [medians, leasts].map(|rows| tapes::one_cut(&rows)) {
        Times { median, least }.print();
    }
}

/// `compile` on the tapes whose name has this part, with the heap as it is in a new process.
pub fn cold(seed: u64, part: &str) {
    head();
    tapes::compiles(&mut Rng::new(seed), part, &mut |piece| times(ROUNDS, piece).print());
}

/// Whole runs, with a warm heap.
pub fn runs(seed: u64) {
    assert!(tapes::runs_agree(&mut Rng::new(seed)), "the sides agree");
    warm_heap();
    head();
    tapes::runs(&mut Rng::new(seed), &mut |piece| times(ROUNDS, piece).print());
}

/// Lists of operations by the engine and by the plain one; then for each what postponing the turns gains.
pub fn plain(seed: u64) {
    head();
    let mut all = Vec::new();
    plain::pieces(&mut Rng::new(seed), &mut |piece| {
        let times = times(ROUNDS, piece);
        times.print();
        all.push(times);
    });
    for pair in all.chunks_exact(2) {
        let over = |row: fn(&Times) -> &Row| row(&pair[1]).sides[1] / row(&pair[0]).sides[1];
        let [median, least] = [over(|times| &times.median), over(|times| &times.least)];
        println!("{:<36} {median:>32.2} {least:>35.2}", format!("gain, {}", pair[0].median.name));
    }
}

/// The original takes vectors from the heap. Once a large block was freed, the allocator no longer gives pages back after each
/// call, and the original's next call does not fault for them.
pub fn warm_heap() {
    drop(black_box(vec![1u8; 16 << 20]));
}

/// Prints the line above the others.
fn head() {
    let [a, b, ratio] = ["original ns", "port ns", "ratio"];
    print!("{:<36} {a:>13} {b:>11} {ratio:>6}", "median, then least, of each piece");
    println!(" {a:>16} {b:>11} {ratio:>6}");
}

impl Times {
    fn print(&self) {
        let Times { median, least } = self;
        let [a, b] = median.sides;
        print!("{:<36} {a:>13.1} {b:>11.1} {:>6.2}", median.name, median.ratio());
        let [a, b] = least.sides;
        println!(" {a:>16.1} {b:>11.1} {:>6.2}", least.ratio());
    }
}

//! CPU time of the calling thread: the median and the least of rounds in which the sides take turns.

use crate::pieces::{Pass, Piece};
use crate::rows::Row;

/// CPU time of a round at least, in nanoseconds: much longer than it takes to read the clock, and so short that some rounds
/// are not disturbed.
const ROUND_NS: f64 = 3e5;

#[repr(C)]
struct Timespec {
    seconds: i64,
    nanoseconds: i64,
}

/// Number of the clock on Linux.
const CLOCK_THREAD_CPUTIME_ID: i32 = 3;

extern "C" {
    fn clock_gettime(clock: i32, time: *mut Timespec) -> i32;
}

/// CPU time of this thread, in nanoseconds.
fn now() -> f64 {
    let mut t = Timespec { seconds: 0, nanoseconds: 0 };
    // SAFETY: the function writes one time to where it is told.
    let failed = unsafe { clock_gettime(CLOCK_THREAD_CPUTIME_ID, &mut t) };
    assert_eq!(failed, 0, "the thread's clock can be read");
    t.seconds as f64 * 1e9 + t.nanoseconds as f64
}

/// The time of `passes` passes.
fn spent(pass: Pass, passes: usize) -> f64 {
    let start = now();
    (0..passes).for_each(|_| pass());
    now() - start
}

/// Times of a piece, in nanoseconds.
pub struct Times {
    pub median: Row,
    pub least: Row,
}

/// The times of so many rounds of each side.
pub fn times(rounds: usize, piece: Piece) -> Times {
    let Piece { name, calls, original, port } = piece;
    let slower = spent(original, 3).max(spent(port, 3)) / 3.0;
    let passes = (ROUND_NS / slower).ceil().max(1.0) as usize;
    let mut sides = [Vec::new(), Vec::new()];
    for _ in 0..rounds {
        sides[0].push(spent(original, passes));
        sides[1].push(spent(port, passes));
    }
    sides.iter_mut().for_each(|side| side.sort_by(f64::total_cmp));
    let row = |rank: usize| Row::of(name, calls * passes, [sides[0][rank], sides[1][rank]]);
    Times { median: row(rounds / 2), least: row(0) }
}

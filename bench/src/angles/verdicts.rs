//! What must become of a tape with a single gate, by the determinants of its matrix.

use crate::layout::question;
use crate::ran::Ran;
use oracle::complex::Complex;
use oracle::exact::gates::{any2, matchgate2, nearly};
use oracle::exact::judge;
use oracle::exact::lists::{Gate, List, Step};
use oracle::exact::matrix::{swap, times, Matrix};
use oracle::list::{DROP, RELABEL};
use oracle::rng::Rng;

/// Absolute values that count as zero, by a narrow rule and by a wide one: a gate on which the two differ is near a matchgate, and left out.
const ZEROS: [f64; 2] = [1e-12, 1e-6];

#[derive(Clone, Copy, Debug, PartialEq)]
pub enum Verdict {
    Accepted,
    /// Accepted, and an interaction is dropped.
    Dropped,
    Refused(u64),
}

impl Verdict {
    pub fn of(ran: &Result<Ran, u64>) -> Verdict {
        match ran {
            Ok(ran) if ran.exact => Verdict::Accepted,
            Ok(_) => Verdict::Dropped,
            Err(number) => Verdict::Refused(*number),
        }
    }

    /// Of a list of blocks, with interactions that stand alone.
    pub fn of_blocks(list: &List<Complex>) -> Verdict {
        match list.steps.iter().any(|step| matches!(step, Step::Interaction(..))) {
            true => Verdict::Dropped,
            false => Verdict::Accepted,
        }
    }
}

/// A list of one gate, matchgate or other, and its verdict; none if it is near a matchgate.
pub fn gate(rng: &mut Rng, flags: u8) -> Option<(List<Complex>, Verdict)> {
    let (n, gate, verdicts) = if rng.chance(1, 4) {
        let u = if rng.chance(1, 2) { matchgate2(rng) } else { any2(rng) };
        let verdict = |zero| of_one(&u.matrix, zero);
        (1, Gate::One(0, u), ZEROS.map(verdict))
    } else {
        let u = nearly(rng).1;
        let verdict = |zero| of_two(&u.matrix, flags, zero);
        let pair = if rng.chance(1, 2) { [0, 1] } else { [1, 0] };
        (2, Gate::Two(pair, u), ZEROS.map(verdict))
    };
    let block = Step::Block((0..n).collect(), vec![gate]);
    let list = List { n, modes: (0..n).collect(), steps: vec![block] };
    (verdicts[0] == verdicts[1]).then_some((list, verdicts[0]))
}

fn of_one(u: &Matrix<Complex, 2>, zero: f64) -> Verdict {
    match judge::of_one(u, |x| x.size() < zero) {
        true => Verdict::Accepted,
        false => Verdict::Refused(question::BAD),
    }
}

/// With flag bit 0 a matchgate times a swap is one that renames.
fn of_two(u: &Matrix<Complex, 4>, flags: u8, zero: f64) -> Verdict {
    let is_zero = |x: Complex| x.size() < zero;
    let forms = [*u, times(&swap(), u)];
    let forms = &forms[..if flags & RELABEL != 0 { 2 } else { 1 }];
    let diagonal = |u: &Matrix<Complex, 4>| (0..16).all(|k| k % 5 == 0 || is_zero(u[k / 4][k % 4]));
    if forms.iter().any(|u| judge::of_two(u, is_zero)) {
        Verdict::Accepted
    } else if !forms.iter().any(diagonal) {
        Verdict::Refused(question::BAD)
    } else if flags & DROP != 0 {
        Verdict::Dropped
    } else {
        Verdict::Refused(question::INTERACTION)
    }
}

//! Register tapes, with document 01's bit register beside each answer.
//!
//! All arithmetic on them is exact, so the tolerance changes nothing. Below
//! 1e-12 the original's angles of diagonal blocks would count as phases; there
//! the run that is stored is that of the usual tolerance, by the paper's own
//! promise.

use super::asked::{self, Asked};
use super::ran::Ran;
use super::{add_run, TOL};
use crate::answer::Answer;
use crate::bits::word;
use crate::families;
use crate::layout::{covariance_bytes, index_words};
use crate::list::{List, DROP, RELABEL, REORDER};
use crate::query::Query;
use crate::records::Records;
use crate::register::Register;
use crate::rng::Rng;
use crate::tape::tape;
use original::gate::Gate;

/// Tolerances; of the random ones those that are not here are left out.
const TOLERANCES: [f64; 3] = [0.0, -0.0, 0.001];

/// Qubits of a tape at most, so that there is room for many.
const MOST_QUBITS: usize = 9;

/// What the tapes are about.
#[derive(Default, Debug)]
struct Met {
    accepted: usize,
    refused: usize,
    angled: usize,
    flags: [usize; 8],
    tolerances: [usize; 3],
    /// Answers with the row 0, 2 or a later one.
    rows: [usize; 3],
}

pub fn add(out: &mut Records, rng: &mut Rng) {
    let family = families::find("register").expect("a family");
    let mut met = Met::default();
    for k in 0..6000 {
        let list = family(&mut rng.split());
        if list.n <= MOST_QUBITS && known(list.tol).is_some() {
            met.add(out, &list, k % 4 == 0);
        }
    }
    let counts = met.flags.iter().chain(&met.tolerances).chain(&met.rows).chain([&met.refused]);
    let least = counts.min();
    let enough = met.accepted >= 80 && met.angled >= 20 && least.is_some_and(|&k| k >= 3);
    assert!(enough, "{met:?}");
}

/// Which of the tolerances it is.
fn known(tol: f64) -> Option<usize> {
    TOLERANCES.iter().position(|x| x.to_bits() == tol.to_bits())
}

impl Met {
    /// Adds a tape; one that is refused only if `refused` says so.
    fn add(&mut self, out: &mut Records, list: &List, refused: bool) {
        let ran = Ran::of(&List { tol: list.tol.max(TOL), ..list.clone() });
        let mut rows = vec![];
        if ran.accepted() {
            let register = Register::of(list.n, &list.gates).expect("a register tape");
            let answers = asked::all(list, &ran);
            let all = list.queries.iter().zip(&answers);
            all.for_each(|(q, a)| assert!(gives(&register, q, a), "{q} of\n{list}"));
            rows = answers.iter().filter_map(Asked::row).collect();
        } else {
            assert!(!accepts(list), "refused:\n{list}");
            if !refused {
                return;
            }
        }
        if add_run(out, &tape(list).expect("a tape"), list, &ran) {
            self.accepted += usize::from(ran.accepted());
            self.refused += usize::from(!ran.accepted());
            self.angled += usize::from(ran.seen.angled);
            self.flags[usize::from(list.flags & (RELABEL | REORDER | DROP))] += 1;
            self.tolerances[known(list.tol).expect("a tolerance")] += 1;
            rows.iter().for_each(|row| self.rows[(row / 2).min(2)] += 1);
        }
    }
}

/// Whether the last sentence of the register claim says that a tape is accepted, if the limit suffices.
fn accepts(list: &List) -> bool {
    let plain = |g: &Gate| match *g {
        Gate::Swap(..) => false,
        Gate::ISwap(a, b) | Gate::ISwapdg(a, b) => a.abs_diff(b) == 1,
        _ => true,
    };
    list.limit >= covariance_bytes(list.n) && list.gates.iter().all(plain)
}

/// Whether the number of an answer that is given is the register's, which knows no row.
fn gives(register: &Register, query: &Query, asked: &Asked) -> bool {
    if asked.answer[0] != 0 {
        return true;
    }
    match register.answer(query) {
        Answer::Value(x, _) => asked.answer[2] == word(x),
        Answer::Shots(shots) => {
            let words = shots.iter().flat_map(|&x| index_words(x));
            words.zip(&asked.output).all(|(a, b)| a == *b)
        }
        Answer::Refused(..) => false,
    }
}

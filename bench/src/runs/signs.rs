//! Deliberately broken copies of the evolution, in which turns of the signs are lost: they must give other answers than the port.

use super::ported::Ran;
use oracle::answer::Answer;
use oracle::query::Query;
use oracle::runs::faults::{turns, z, Fault};

/// A difference of Z that counts.
const CLEAR: f64 = 0.01;
/// Largest difference between the port and the copy without a fault.
const CLOSE: f64 = 1e-9;

/// What the copies showed.
#[derive(Default)]
pub struct Signs {
    lists: usize,
    /// Lists on which the copy without a fault gives another Z than the port, and those on which one that never turns does.
    whole: usize,
    never: usize,
    /// Single turns, and those of them that change a Z if they alone are lost.
    turns: usize,
    single: usize,
}

impl Signs {
    /// A list without interactions.
    pub fn add(&mut self, ran: &Ran) {
        let (n, modes) = (ran.slice.n, ran.slice.mode_of_qubit());
        let port = |q: usize| match ran.slice.ask(&Query::z(q)).0 {
            Answer::Value(x, _) => x,
            _ => f64::NAN,
        };
        let other = |fault: Fault, least: f64| {
            let broken = z(n, &ran.ops, fault);
            (0..n).any(|q| (port(q) - broken[modes[q]]).abs() > least)
        };
        let turns = turns(n, &ran.ops);
        self.lists += 1;
        self.whole += usize::from(other(Fault::None, CLOSE));
        self.never += usize::from(other(Fault::NoTurn, CLEAR));
        self.turns += turns.len();
        self.single += turns.iter().filter(|&&k| other(Fault::Lost(k), CLEAR)).count();
    }

    /// Prints the counts; whether three of four lists and turns show at least. A turn before which or after which nothing joins the
    /// modes that it parts does not.
    pub fn end(&self) -> bool {
        println!(
            "runs signs: a copy of the evolution gives another Z than the port on {} of {} lists, one that never turns the signs on {}; of {} \
             turns {} change a Z if they alone are lost",
            self.whole, self.lists, self.never, self.turns, self.single
        );
        self.whole == 0 && 4 * self.never >= 3 * self.lists && 4 * self.single >= 3 * self.turns
    }
}

//! Answers, the original's or the port's, beside the state vector's.

use crate::answer::{answer, Answer};
use crate::layout::question;
use crate::list::List;
use crate::query::Query;
use crate::rng::Rng;
use crate::run::run;
use crate::vector::{Vector, WIDEST};
use std::fmt;

/// Largest difference that counts as none.
const CLOSE: f64 = 1e-9;
/// Random products, marginals and basis indices of each list.
const RANDOM_QUERIES: usize = 8;
/// Shots of each list.
const SHOTS: usize = 4;

/// What was compared.
#[derive(Default)]
pub struct Counts {
    lists: usize,
    checked: usize,
    /// Accepted with interactions dropped: the state vector keeps them.
    dropped: usize,
    /// Too wide for a state vector.
    wide: usize,
    /// Refused by 11, 12, 13, 14.
    refused: [usize; 4],
    z: usize,
    products: usize,
    marginals: usize,
    probabilities: usize,
    /// Bits of shots; those whose draw lies too near the probability are left out.
    shot_bits: usize,
    near_draws: usize,
    worst: f64,
    pub wrong: usize,
}

/// Puts a query to the state that is checked.
type Ask<'a> = &'a dyn Fn(&Query) -> Answer;

/// An accepted run.
pub struct Accepted<'a> {
    /// No interaction was dropped.
    pub exact: bool,
    /// The mode of each qubit.
    pub modes: &'a [usize],
    pub ask: Ask<'a>,
}

impl Counts {
    /// Compares the original's answers to one list, if it accepts it.
    pub fn check(&mut self, list: &List) {
        let run = run(list);
        match run.state {
            Err(number) => self.add(list, Err(number)),
            Ok(state) => {
                let modes: Vec<usize> = (0..list.n).map(|q| state.mode_of_qubit(q)).collect();
                let ask: Ask = &|query| answer(&state, list, query);
                self.add(list, Ok(Accepted { exact: run.report.exact, modes: &modes, ask }));
            }
        }
    }

    /// Counts a list that was refused, or compares the answers to it.
    pub fn add(&mut self, list: &List, run: Result<Accepted, u8>) {
        self.lists += 1;
        match run {
            Err(number) => self.refused[(u64::from(number) - question::APART) as usize] += 1,
            Ok(run) if !run.exact => self.dropped += 1,
            Ok(_) if list.n > WIDEST => self.wide += 1,
            Ok(run) => self.check_answers(list, run.modes, run.ask),
        }
    }

    fn check_answers(&mut self, list: &List, modes: &[usize], ask: Ask) {
        self.checked += 1;
        let vector = Vector::run(list.n, &list.gates);
        let own = list.queries.iter().filter(|q| !matches!(q, Query::Sample(..)));
        for query in own.chain(&queries(list.n, &mut Rng::new(self.lists as u64))) {
            self.check_query(list, &vector, query, ask);
        }
        let rng = &mut Rng::new(!self.lists as u64);
        let draws: Vec<f64> = (0..SHOTS * list.n).map(|_| rng.unit()).collect();
        self.check_shots(modes, &vector, &draws, ask);
    }

    fn check_query(&mut self, list: &List, vector: &Vector, query: &Query, ask: Ask) {
        let Answer::Value(got, _) = ask(query) else {
            return;
        };
        let want = match query {
            Query::Product(qs) => vector.product(qs),
            Query::Marginal(qs, bits) => vector.marginal(qs, bits),
            Query::Probability(x) => vector.probability(*x as usize & ((1 << list.n) - 1)),
            Query::Sample(..) => return,
        };
        *match query {
            Query::Product(qs) if qs.len() == 1 => &mut self.z,
            Query::Marginal(..) => &mut self.marginals,
            Query::Probability(_) => &mut self.probabilities,
            _ => &mut self.products,
        } += 1;
        let apart = (got - want).abs();
        self.worst = self.worst.max(apart);
        if apart.is_nan() || apart > CLOSE {
            self.wrong += 1;
            eprintln!("{query} gives {got}, the state vector {want}\n{list}");
        }
    }

    /// Follows each shot mode by mode: a draw gives 1 exactly if it is not below the probability of 0.
    fn check_shots(&mut self, modes: &[usize], vector: &Vector, draws: &[f64], ask: Ask) {
        let Answer::Shots(shots) = ask(&Query::Sample(SHOTS, draws.to_vec())) else {
            panic!("a sample gives shots");
        };
        let mut order: Vec<usize> = (0..modes.len()).collect();
        order.sort_by_key(|&q| modes[q]);
        for (shot, draws) in shots.iter().zip(draws.chunks(modes.len().max(1))) {
            let bits: Vec<bool> = order.iter().map(|&q| shot >> q & 1 == 1).collect();
            for (k, &draw) in draws.iter().enumerate() {
                let before = vector.marginal(&order[..k], &bits[..k]);
                let mut zero = bits[..k].to_vec();
                zero.push(false);
                let p0 = vector.marginal(&order[..k + 1], &zero) / before;
                if before <= CLOSE || (draw - p0).abs() <= CLOSE {
                    self.near_draws += 1;
                } else {
                    self.shot_bits += 1;
                    self.wrong += (bits[k] != (draw >= p0)) as usize;
                }
            }
        }
    }
}

/// Every Z, then some products, marginals and basis indices.
fn queries(n: usize, rng: &mut Rng) -> Vec<Query> {
    let mut out: Vec<Query> = (0..n).map(Query::z).collect();
    for _ in 0..RANDOM_QUERIES {
        out.push(Query::Product(rng.subset(n)));
        let qs = rng.subset(n);
        let bits = qs.iter().map(|_| rng.chance(1, 2)).collect();
        out.push(Query::Marginal(qs, bits));
        out.push(Query::Probability(u128::from(rng.word())));
    }
    out
}

impl fmt::Display for Counts {
    fn fmt(&self, f: &mut fmt::Formatter<'_>) -> fmt::Result {
        let [r11, r12, r13, r14] = self.refused;
        writeln!(
            f,
            "lists {} checked {} dropped {} wide {} refused by 11: {r11}, 12: {r12}, 13: {r13}, 14: {r14}",
            self.lists, self.checked, self.dropped, self.wide
        )?;
        writeln!(
            f,
            "compared z {} products {} marginals {} probabilities {} shot bits {} (near draws left out {})",
            self.z, self.products, self.marginals, self.probabilities, self.shot_bits, self.near_draws
        )?;
        writeln!(f, "largest difference {:e}, wrong {}", self.worst, self.wrong)
    }
}

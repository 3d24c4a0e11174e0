//! The job: a source is compiled and run, all parities are read off, what was asked besides is
//! answered, and shots are taken.

use crate::engine::{Compiled, Engine, Number, Refusal, State};
use crate::layout::question;
use crate::refusals::{self, Explained};
use crate::source::Source;
use crate::zero::Zero;
use std::collections::BTreeMap;

/// A question besides all parities.
#[derive(Clone, Debug, PartialEq)]
pub enum Query {
    /// The expectation of Z over these qubits.
    Product(Vec<usize>),
    /// The probability that these qubits have these bits.
    Marginal(Vec<(usize, u8)>),
    /// The probability of a basis index: a bit for each qubit, qubit 0 first.
    Index(Vec<u8>),
}

impl Query {
    pub fn kind(&self) -> &'static str {
        match self {
            Query::Product(_) => "product",
            Query::Marginal(_) => "marginal",
            Query::Index(_) => "index",
        }
    }

    /// As it was asked.
    pub fn text(&self) -> String {
        let list = |words: Vec<String>| words.join(",");
        match self {
            Query::Product(qubits) => list(qubits.iter().map(|q| q.to_string()).collect()),
            Query::Marginal(parts) => list(parts.iter().map(|(q, b)| format!("{q}={b}")).collect()),
            Query::Index(bits) => bits.iter().map(|b| b.to_string()).collect(),
        }
    }

    /// The qubits of its list, in order; a basis index has none.
    pub fn qubits(&self) -> Box<dyn Iterator<Item = usize> + '_> {
        match self {
            Query::Product(qubits) => Box::new(qubits.iter().copied()),
            Query::Marginal(parts) => Box::new(parts.iter().map(|(q, _)| *q)),
            Query::Index(_) => Box::new(std::iter::empty()),
        }
    }

    /// Where its answer comes from, if that is zero. Of a basis index nothing is told.
    pub fn zero(&self, answer: Number) -> Option<Zero> {
        match self {
            Query::Index(_) => None,
            Query::Marginal(_) if answer.value == 0.0 && self.contradicts_itself() => {
                Some(Zero::Contradiction)
            }
            Query::Product(_) | Query::Marginal(_) => Zero::of(answer),
        }
    }

    /// Whether it wants two bits of one qubit.
    fn contradicts_itself(&self) -> bool {
        let Query::Marginal(parts) = self else { return false };
        let mut wanted = BTreeMap::new();
        parts.iter().any(|(q, bit)| wanted.insert(q, bit).is_some_and(|before| before != bit))
    }

    fn ask(&self, engine: &dyn Engine, state: &State) -> Result<Number, Refusal> {
        match self {
            Query::Product(qubits) => engine.expectation_z_product(state, qubits),
            Query::Marginal(parts) => {
                let (qubits, bits): (Vec<_>, Vec<_>) = parts.iter().copied().unzip();
                engine.marginal_probability(state, &qubits, &bits)
            }
            Query::Index(bits) => {
                let bit = |(q, b): (usize, &u8)| u128::from(*b) << q;
                let index = bits.iter().enumerate().map(bit).sum();
                engine.probability(state, index).map(Number::from)
            }
        }
    }
}

/// What came of it.
#[derive(Debug)]
pub struct Outcome {
    /// The report and the operations, unless the tape itself was refused.
    pub compiled: Option<Compiled>,
    pub answers: Result<Answers, Explained>,
}

#[derive(Debug)]
pub struct Answers {
    /// The state after all gates, of which shots can be taken.
    pub state: State,
    /// Z of each qubit.
    pub parities: Vec<Number>,
    /// The answer to each query.
    pub queries: Vec<Result<Number, Refusal>>,
}

impl Answers {
    /// Where the parities that are zero come from.
    pub fn zeros(&self) -> impl Iterator<Item = Zero> + '_ {
        self.parities.iter().filter_map(|z| Zero::of(*z))
    }
}

impl Outcome {
    /// Whether anything was refused.
    pub fn refused(&self) -> bool {
        self.answers.as_ref().map_or(true, |a| a.queries.iter().any(|q| q.is_err()))
    }
}

/// Does the job but for the shots. It fails only if the engine refuses what no question of its forbids.
pub fn run(source: &Source, queries: &[Query], engine: &dyn Engine) -> Result<Outcome, String> {
    match engine.run(&source.tape) {
        Err(refusal) => {
            let compiled = engine.compile(&source.tape).ok();
            let refused = refusals::explain(refusal, source, compiled.as_ref(), engine);
            Ok(Outcome { compiled, answers: Err(refused) })
        }
        Ok(run) => {
            let state = run.state;
            let impossible = |r: Refusal| refusals::tools_fault(r.number);
            let z = |q| engine.expectation_z_product(&state, &[q]).map_err(impossible);
            let parities = (0..state.n()).map(z).collect::<Result<_, _>>()?;
            let queries = queries.iter().map(|q| q.ask(engine, &state)).collect();
            let answers = Answers { state, parities, queries };
            Ok(Outcome { compiled: Some(run.compiled), answers: Ok(answers) })
        }
    }
}

/// Some shots, as basis indices; a refusal names the place among all draws, and ends the shots.
pub type Portion = Result<Vec<u128>, Refusal>;

/// Shots of a state, a portion at a time, so that they can be printed as they come.
pub struct Shots<'a> {
    engine: &'a dyn Engine,
    state: &'a State,
    left: usize,
    done: usize,
    draws: Box<dyn Iterator<Item = f64> + 'a>,
}

impl<'a> Shots<'a> {
    /// So many shots, with n draws for each.
    pub fn new(
        engine: &'a dyn Engine,
        state: &'a State,
        shots: usize,
        draws: Box<dyn Iterator<Item = f64> + 'a>,
    ) -> Shots<'a> {
        Shots { engine, state, left: shots, done: 0, draws }
    }
}

/// Shots of one call: few enough to be seen soon.
const PORTION: usize = 64;

impl Iterator for Shots<'_> {
    type Item = Portion;

    fn next(&mut self) -> Option<Portion> {
        let count = PORTION.min(self.left);
        if count == 0 {
            return None;
        }
        let drawn: Vec<f64> = self.draws.by_ref().take(count * self.state.n()).collect();
        let before = (self.done * self.state.n()) as u64;
        let name_draw = |r: Refusal| match r.number {
            question::DRAW => Refusal { place: r.place + before, ..r },
            _ => r,
        };
        let portion = self.engine.sample(self.state, count, &drawn).map_err(name_draw);
        self.left = if portion.is_ok() { self.left - count } else { 0 };
        self.done += count;
        Some(portion)
    }
}

#[cfg(test)]
mod tests {
    use super::*;
    use crate::engine::fake::Fake;

    fn source(text: &str) -> Source {
        Source::read("f", text.into(), &[]).expect("a list")
    }

    #[test]
    fn shots_come_in_portions() {
        let n = 3;
        let draws: Vec<f64> = (0..n * 150).map(|i| (i % 7) as f64 / 7.0).collect();
        let fake = Fake::accepting(&[1.0; 3]);
        let state = fake.run(&source("qubits 3").tape).expect("a run").state;
        let portions: Vec<_> =
            Shots::new(&fake, &state, 150, Box::new(draws.iter().copied())).collect();
        let portions: Vec<_> = portions.into_iter().map(|p| p.expect("shots")).collect();
        assert_eq!(portions.iter().map(Vec::len).collect::<Vec<_>>(), [64, 64, 22]);
        assert_eq!(Ok(portions.concat()), fake.sample(&state, 150, &draws));
    }

    #[test]
    fn a_bad_draw_is_named_among_all() {
        let mut draws = vec![0.5; 600];
        draws[250] = 1.0;
        let fake = Fake::accepting(&[1.0; 3]);
        let state = fake.run(&source("qubits 3").tape).expect("a run").state;
        let portions: Vec<_> =
            Shots::new(&fake, &state, 200, Box::new(draws.into_iter())).collect();
        assert_eq!(portions.len(), 2);
        assert_eq!(portions[1], Err(Refusal { number: 22, place: 250 }));
    }

    #[test]
    fn an_impossible_refusal_is_an_error() {
        let fake = Fake { silent: true, ..Fake::accepting(&[1.0; 3]) };
        let fault = run(&source("qubits 3"), &[], &fake).expect_err("no parities");
        let want = "the tool asked the engine wrongly (question 19), which is the tool's fault";
        assert_eq!(fault, want);
    }

    #[test]
    fn where_a_zero_comes_from() {
        let zero = |parts: &[(usize, u8)], number| Query::Marginal(parts.to_vec()).zero(number);
        let (found, none) = (Number { value: 0.0, row: Some(2) }, Number::from(0.0));
        assert_eq!(zero(&[(0, 0), (1, 0)], found), Some(Zero::Found(2)));
        assert_eq!(zero(&[(0, 0), (1, 0), (0, 0)], none), Some(Zero::WorkedOut));
        assert_eq!(zero(&[(0, 0), (1, 0), (0, 1)], none), Some(Zero::Contradiction));
        assert_eq!(zero(&[(0, 0), (0, 1)], Number::from(0.5)), None);
        assert_eq!(zero(&[(0, 0)], Number::from(0.5)), None);
        assert_eq!(Query::Product(vec![3, 0]).zero(found), Some(Zero::Found(2)));
        assert_eq!(Query::Product(vec![3, 0]).zero(none), Some(Zero::WorkedOut));
        assert_eq!(Query::Index(vec![0, 1]).zero(none), None);
    }

    #[test]
    fn where_a_list_stops_being_accepted() {
        let text = "qubits 2\n# a comment\nx 0\nz 1\n\nh 0\nx 1\n";
        let fake = Fake::refusing(2, 12, 2);
        let outcome = run(&source(text), &[], &fake).expect("an outcome");
        let refused = outcome.answers.expect_err("a refusal");
        let place = "line 6, `h 0`: accepted before it, and never from it on";
        assert_eq!((refused.place.as_deref(), refused.line), (Some(place), Some(6)));
        assert!(refused.why.contains("1 of 3 blocks is neither"), "{}", refused.why);
    }

    #[test]
    fn a_record_that_is_refused_is_named() {
        let text = "qubits 2\nx 0\nx 9 # wrong\n";
        let fake = Fake::refusing(2, 6, 1);
        let outcome = run(&source(text), &[], &fake).expect("an outcome");
        let refused = outcome.answers.expect_err("a refusal");
        let line = crate::report::refused_line(&refused);
        let want = "line 3, `x 9`: qubit 9 is not below 2 (refusal 6); ";
        assert!(line.starts_with(want), "{line}");
    }
}

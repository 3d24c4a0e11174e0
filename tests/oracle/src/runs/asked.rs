//! Queries put to the state of a run, with their answers.

use super::ran::Ran;
use crate::answer::{answer, Answer};
use crate::bits::word;
use crate::layout::{index_words, query_places, INDEX_WORDS};
use crate::list::List;
use crate::query::Query;
use crate::state_lists::machine::{row_word, Machine};
use crate::state_lists::tag;
use original::engines::gaussian::state::GaussianState;

/// A query's words.
pub struct Asked {
    tag: u64,
    /// What is asked.
    before: Vec<u64>,
    /// The length of work and how many of its places are zero after the call.
    work: [u64; 2],
    /// Number, place, value; then the row's word, if it is a product or a marginal.
    pub answer: Vec<u64>,
    /// The words of a sample.
    pub output: Vec<u64>,
}

impl Asked {
    /// Whether the answer is this number, place and value with this row.
    pub fn is(&self, told: [u64; 3], row: Option<usize>) -> bool {
        let (own, rest) = self.answer.split_at(told.len());
        own == told && rest.first().copied().unwrap_or(0) == row_word(row)
    }

    /// The row where the Pfaffian of a product or a marginal stops.
    pub fn row(&self) -> Option<usize> {
        self.answer.get(3)?.checked_sub(1).map(|row| row as usize)
    }

    pub fn words(&self) -> Vec<u64> {
        let parts = [&self.before, &self.work[..], &self.answer, &self.output].concat();
        [&[self.tag, parts.len() as u64], &parts[..]].concat()
    }
}

/// The queries of a list. Where its operations are the original's own, so are the answers.
pub fn all(list: &List, ran: &Ran) -> Vec<Asked> {
    let machine = ran.machine(list.n);
    let one = |(k, q): (usize, &Query)| {
        let asked = ask(&machine, list.n, k, q);
        if let Some(original) = ran.original.as_ref().filter(|_| !ran.seen.angled) {
            assert!(is_original(&asked, list, q, original), "{q}");
        }
        asked
    };
    list.queries.iter().enumerate().map(one).collect()
}

/// Puts query k; work and output are a few places longer than they must be.
fn ask(machine: &Machine, n: usize, k: usize, query: &Query) -> Asked {
    let wide = |xs: &[usize]| xs.iter().map(|&x| x as u64).collect::<Vec<u64>>();
    let work = |modes: usize| query_places(modes) + k % 3;
    match query {
        Query::Product(qs) => {
            let answer = machine.product_words(qs, work(qs.len().min(n)));
            asked(tag::PRODUCT, [wide(&[qs.len()]), wide(qs)].concat(), &answer)
        }
        Query::Marginal(qs, bs) => {
            let bits: Vec<u8> = bs.iter().map(|&b| u8::from(b)).collect();
            let mut before = wide(&[qs.len(), bs.len()]);
            before.extend(wide(qs));
            before.extend(bits.iter().map(|&b| u64::from(b)));
            asked(tag::MARGINAL, before, &machine.marginal_words(qs, &bits, work(qs.len().min(n))))
        }
        Query::Probability(x) => {
            let [low, high] = index_words(*x);
            asked(tag::PROBABILITY, vec![low, high], &machine.probability_words(low, high, work(n)))
        }
        Query::Sample(shots, draws) => {
            let out = INDEX_WORDS * shots + k % 2;
            let (answer, output) = machine.sample_words(*shots, draws, out, work(n));
            let mut before = wide(&[*shots, draws.len(), out]);
            before.extend(draws.iter().map(|&x| word(x)));
            Asked { output, ..asked(tag::SAMPLE, before, &answer) }
        }
    }
}

/// Two words of work, then the answer.
fn asked(tag: u64, before: Vec<u64>, words: &[u64]) -> Asked {
    let (work, answer) = ([words[0], words[1]], words[2..].to_vec());
    Asked { tag, before, work, answer, output: vec![] }
}

/// Whether the unmodified original gives the same answer. It has no questions 21 and 22.
fn is_original(asked: &Asked, list: &List, query: &Query, state: &GaussianState) -> bool {
    if [21, 22].contains(&asked.answer[0]) {
        return true;
    }
    match answer(state, list, query) {
        Answer::Value(x, row) => asked.is([0, 0, word(x)], row),
        Answer::Refused(number, place) => asked.is([u64::from(number), place as u64, 0], None),
        Answer::Shots(shots) => {
            let words = shots.iter().flat_map(|&x| index_words(x));
            asked.is([0, 0, 0], None) && words.zip(&asked.output).all(|(a, b)| a == *b)
        }
    }
}

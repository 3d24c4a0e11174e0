//! Questions put to the state of an accepted run, and their lines of text.

use crate::bits;
use crate::gate_text::number;
use crate::layout::{index_of, index_words};
use std::fmt;

/// One question.
#[derive(Clone, Debug)]
pub enum Query {
    /// `expectation_z_product`
    Product(Vec<usize>),
    /// `marginal_probability`
    Marginal(Vec<usize>, Vec<bool>),
    /// `probability`
    Probability(u128),
    /// `sample`: the number of shots, and the draws.
    Sample(usize, Vec<f64>),
}

impl Query {
    /// Z of one qubit.
    pub fn z(q: usize) -> Query {
        Query::Product(vec![q])
    }
}

/// The query of a line, split into words; none if it begins with another word.
pub fn parse(words: &[&str]) -> Option<Result<Query, String>> {
    let (name, rest) = words.split_first()?;
    Some(match *name {
        "prod" => numbers(rest).map(Query::Product),
        "marg" => marginal(rest),
        "prob" => probability(rest),
        "sample" => sample(rest),
        _ => return None,
    })
}

fn marginal(rest: &[&str]) -> Result<Query, String> {
    let (qs, bs) = at_colon(rest)?;
    let bits = bs.iter().map(|s| bit(s)).collect::<Result<_, _>>()?;
    Ok(Query::Marginal(numbers(qs)?, bits))
}

fn probability(rest: &[&str]) -> Result<Query, String> {
    let [low, high] = rest else {
        return Err("prob takes two words, low first".to_string());
    };
    Ok(Query::Probability(index_of(bits::parse_word(low)?, bits::parse_word(high)?)))
}

fn sample(rest: &[&str]) -> Result<Query, String> {
    let (shots, draws) = at_colon(rest)?;
    let [shots] = shots else {
        return Err("sample takes one number of shots before the colon".to_string());
    };
    let draws = draws.iter().map(|s| bits::parse(s)).collect::<Result<_, _>>()?;
    Ok(Query::Sample(number(shots)?, draws))
}

fn numbers(words: &[&str]) -> Result<Vec<usize>, String> {
    words.iter().map(|s| number(s)).collect()
}

fn bit(s: &str) -> Result<bool, String> {
    match s {
        "0" => Ok(false),
        "1" => Ok(true),
        _ => Err(format!("`{s}` is not a bit")),
    }
}

fn at_colon<'a, 'b>(words: &'a [&'b str]) -> Result<(&'a [&'b str], &'a [&'b str]), String> {
    let at = words.iter().position(|&s| s == ":").ok_or("a colon is missing")?;
    Ok((&words[..at], &words[at + 1..]))
}

/// The two words of a basis index or a shot, low first.
pub fn index_text(x: u128) -> String {
    let [low, high] = index_words(x);
    format!("{low:016x} {high:016x}")
}

impl fmt::Display for Query {
    fn fmt(&self, f: &mut fmt::Formatter<'_>) -> fmt::Result {
        let list = |qs: &[usize]| -> String { qs.iter().map(|q| format!(" {q}")).collect() };
        match self {
            Query::Product(qs) => write!(f, "prod{}", list(qs)),
            Query::Marginal(qs, bs) => {
                let bs: Vec<usize> = bs.iter().map(|&b| b as usize).collect();
                write!(f, "marg{} :{}", list(qs), list(&bs))
            }
            Query::Probability(x) => write!(f, "prob {}", index_text(*x)),
            Query::Sample(shots, draws) => write!(f, "sample {shots} :{}", bits::texts(draws)),
        }
    }
}

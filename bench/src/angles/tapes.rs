//! The tape of a list: every gate comes by its matrix, but for swaps that rename.

use crate::layout::covariance_bytes;
use oracle::complex::Complex;
use oracle::exact::lists::{Gate, List, Step};
use oracle::exact::matrix::{Matrix, Unitary};
use oracle::tape::{coded, header, record, GIVEN2, GIVEN4};
use original::gate::Gate as Named;

const TOL: f64 = 1e-10;

pub fn tape(list: &List<Complex>, flags: u8) -> Vec<u8> {
    let (n, limit) = (list.n, covariance_bytes(list.n));
    let head = oracle::list::List { n, flags, tol: TOL, limit, gates: vec![], queries: vec![] };
    let mut out = header(&head).expect("a header");
    for step in &list.steps {
        match step {
            Step::Block(_, gates) => gates.iter().for_each(|gate| out.extend(given(gate))),
            Step::Swap(a, b) => out.extend(record(&Named::Swap(*a, *b), false)),
            Step::Interaction(pair, u) => out.extend(two(pair, u)),
        }
    }
    out
}

fn given(gate: &Gate<Complex>) -> Vec<u8> {
    match gate {
        Gate::One(q, u) => coded(GIVEN2, &[*q], &entries(&u.matrix)),
        Gate::Two(pair, u) => two(pair, u),
    }
}

fn two(pair: &[usize; 2], u: &Unitary<Complex, 4>) -> Vec<u8> {
    coded(GIVEN4, pair, &entries(&u.matrix))
}

fn entries<const W: usize>(u: &Matrix<Complex, W>) -> Vec<f64> {
    u.iter().flatten().flat_map(|x| [x.re, x.im]).collect()
}

//! One list by the engine's formula and by quantum mechanics, every number equal.

use super::asked::{contradicts, marginals, products, repeats};
use super::fused::fused;
use super::lists::{inverted, List};
use super::number::Field;
use super::queries::Asked;
use super::seen::{Count::*, Seen};
use super::shape;
use super::shots::Reading;
use super::state::{Fault, FAULTS};
use super::vector::Vector;
use crate::rng::Rng;

pub fn compare<N: Field>(seen: &mut Seen, rng: &mut Rng, list: &List<N>) {
    seen.note(Lists, 1);
    let told = |what: &str| format!("{what}\n{list:?}");
    let Some(fused) = fused(list) else {
        return seen
            .check(Blocks, false, || told("a block is no matchgate, or its modes are apart"));
    };
    shape::note(seen, list, &fused);
    let vector = Vector::of(list);
    seen.check(Lists, vector.is_state(), || told("the state vector is no state"));
    let products = products(rng, list.n);
    let beside = Beside { list, vector: &vector, products: &products, modes: &fused.modes };
    let truth = vector.covariance(&inverted(&fused.modes));
    let covariance = fused.state(Fault::None).covariance();
    let asked = Asked { covariance: &covariance, modes: &fused.modes };
    beside.entries(seen, &truth, &covariance);
    beside.zs(seen, &asked);
    beside.marginals(seen, rng, &asked);
    beside.outcomes(seen, &Reading::start(&covariance));
    if shape::turns(&fused) {
        seen.note(Turning, 1);
        for (which, fault) in FAULTS.into_iter().enumerate() {
            let wrong = fused.state(fault).covariance();
            seen.fault(which, beside.differs(&truth, &wrong));
        }
    }
}

struct Beside<'a, N> {
    list: &'a List<N>,
    vector: &'a Vector<N>,
    products: &'a [Vec<usize>],
    modes: &'a [usize],
}

impl<N: Field> Beside<'_, N> {
    fn told(&self, what: &str, got: N, value: N) -> String {
        format!("{what} is {got:?}, by quantum mechanics {value:?}\n{:?}", self.list)
    }

    fn entries(&self, seen: &mut Seen, truth: &[Vec<N>], covariance: &[Vec<N>]) {
        for (r, (rows, line)) in covariance.iter().zip(truth).enumerate() {
            for (c, (&got, &value)) in rows.iter().zip(line).enumerate() {
                let told = || self.told(&format!("the entry ({r}, {c})"), got, value);
                seen.compare([Entries, EntriesNot], value == N::ZERO, got == value, &told);
            }
        }
    }

    fn zs(&self, seen: &mut Seen, asked: &Asked<N>) {
        for (k, qubits) in self.products.iter().enumerate() {
            let (got, value) = (asked.product(qubits), self.vector.product(qubits));
            let told = || self.told(&format!("the product of Z over {qubits:?}"), got, value);
            let zero = value == N::ZERO;
            if k < self.list.n {
                let well = got == value && asked.z(qubits[0]) == value;
                seen.compare([Zs, ZsNot], zero, well, &told);
            } else {
                seen.note(Repeated, usize::from(repeats(qubits)));
                seen.compare([Products, ProductsNot], zero, got == value, &told);
            }
        }
    }

    /// Lists of qubits with bits, some of them repeated, and all basis indices.
    fn marginals(&self, seen: &mut Seen, rng: &mut Rng, asked: &Asked<N>) {
        for listed in marginals(rng, self.list.n) {
            let (got, value) = (asked.marginal(&listed), self.vector.marginal(&listed));
            seen.note(Contradicting, contradicts(&listed).into());
            seen.note(Agreeing, (repeats(&listed) && !contradicts(&listed)).into());
            let told = || self.told(&format!("the chance of {listed:?}"), got, value);
            seen.compare([Marginals, MarginalsNot], value == N::ZERO, got == value, &told);
        }
        for x in 0..1 << self.list.n {
            let (got, value) = (asked.index(x), self.vector.index(x));
            let told = || self.told(&format!("the chance of index {x}"), got, value);
            seen.compare([Indices, IndicesNot], value == N::ZERO, got == value, &told);
        }
    }

    /// The chances of all outcomes after what was read, as far as modes can be read.
    fn outcomes(&self, seen: &mut Seen, reading: &Reading<N>) {
        let on = inverted(self.modes);
        for next in [false, true].map(|bit| reading.next(bit)) {
            let read: Vec<_> = on.iter().copied().zip(next.bits.iter().copied()).collect();
            let (got, value) = (next.chance, self.vector.marginal(&read));
            let told = || self.told(&format!("the chance of the outcome {read:?}"), got, value);
            seen.compare([Chances, ChancesNot], value == N::ZERO, got == value, &told);
            match (next.is_whole(), value == N::ZERO) {
                (true, _) => {}
                (false, true) => seen.note(Ended, 1),
                (false, false) => self.outcomes(seen, &next),
            }
        }
    }

    /// Whether a wrong covariance has another entry, another single Z, another product.
    fn differs(&self, truth: &[Vec<N>], wrong: &[Vec<N>]) -> [bool; 3] {
        let asked = Asked { covariance: wrong, modes: self.modes };
        let other = |qubits: &Vec<usize>| asked.product(qubits) != self.vector.product(qubits);
        let (zs, products) = self.products.split_at(self.list.n);
        [truth != wrong, zs.iter().any(other), products.iter().any(other)]
    }
}

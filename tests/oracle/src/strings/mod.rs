//! Signed Pauli strings, in plain Rust: what an operator after a circuit is before it, and its value in the vacuum. Where every step of the circuit
//! takes such strings to such strings, this is all that quantum mechanics has to say. Nothing here speaks of determinants, of later modes or of
//! postponed signs, and no line is shared with the engine or with the definitions of `crates/signs`.

pub mod blocks;
pub mod checks;
pub mod gates;
pub mod lists;

use std::fmt;

#[derive(Clone, Copy, Debug, PartialEq, Eq)]
pub enum Pauli {
    I,
    X,
    Y,
    Z,
}

use Pauli::*;

/// Each of them, in the order of tables.
pub const PAULIS: [Pauli; 4] = [I, X, Y, Z];

impl Pauli {
    /// The product of two: i to so many, times a Pauli.
    pub fn times(self, other: Pauli) -> (u8, Pauli) {
        match (self, other) {
            (I, p) | (p, I) => (0, p),
            (X, X) | (Y, Y) | (Z, Z) => (0, I),
            (X, Y) => (1, Z),
            (Y, Z) => (1, X),
            (Z, X) => (1, Y),
            (Y, X) => (3, Z),
            (Z, Y) => (3, X),
            (X, Z) => (3, Y),
        }
    }
}

/// A Pauli on each place, which is a mode or a qubit, with i to so many in front.
#[derive(Clone, Debug, PartialEq, Eq)]
pub struct PauliString {
    pub phase: u8,
    pub at: Vec<Pauli>,
}

impl PauliString {
    pub fn identity(n: usize) -> PauliString {
        PauliString { phase: 0, at: vec![I; n] }
    }

    /// Z on each listed place; listed twice it is not there.
    pub fn zs(n: usize, listed: &[usize]) -> PauliString {
        let mut s = PauliString::identity(n);
        for &k in listed {
            s.at[k] = if s.at[k] == Z { I } else { Z };
        }
        s
    }

    /// The Majorana operator of a number, two to a mode, by Jordan-Wigner: Z on the modes before, X or Y on its own.
    pub fn majorana(n: usize, number: usize) -> PauliString {
        let own = number / 2;
        let at = (0..n).map(|k| match k {
            _ if k < own => Z,
            _ if k > own => I,
            _ if number % 2 == 0 => X,
            _ => Y,
        });
        PauliString { phase: 0, at: at.collect() }
    }

    /// -i times two Majorana operators: what an entry of the covariance is the value of.
    pub fn pair(n: usize, row: usize, column: usize) -> PauliString {
        let product = PauliString::majorana(n, row).times(&PauliString::majorana(n, column));
        product.with_phase(3)
    }

    /// With i to so many in front.
    pub fn with_phase(mut self, more: u8) -> PauliString {
        self.phase = (self.phase + more) % 4;
        self
    }

    pub fn times(&self, other: &PauliString) -> PauliString {
        assert_eq!(self.at.len(), other.at.len());
        let mut out = PauliString { phase: self.phase + other.phase, at: vec![] };
        for (&p, &q) in self.at.iter().zip(&other.at) {
            let (more, pauli) = p.times(q);
            out.phase += more;
            out.phase %= 4;
            out.at.push(pauli);
        }
        out
    }

    /// The real part of its value in the vacuum: X and Y turn a place, so there is none; I and Z leave it.
    pub fn value(&self) -> f64 {
        match self.phase {
            _ if self.at.iter().any(|p| matches!(p, X | Y)) => 0.0,
            0 => 1.0,
            2 => -1.0,
            _ => 0.0,
        }
    }
}

impl fmt::Display for PauliString {
    fn fmt(&self, f: &mut fmt::Formatter<'_>) -> fmt::Result {
        write!(f, "{}", ["", "i", "-", "-i"][usize::from(self.phase)])?;
        self.at.iter().try_for_each(|p| write!(f, "{p:?}"))
    }
}

/// What U* P U is for each Pauli P on the one place or the two of a unitary U: 4 images, in the order I X Y Z, or 16, from II IX IY IZ XI on.
#[derive(Clone, Debug, PartialEq)]
pub struct Images(pub Vec<PauliString>);

/// The number of some Paulis in a table of images.
fn number(paulis: impl Iterator<Item = Pauli>) -> usize {
    paulis.fold(0, |number, p| 4 * number + p as usize)
}

impl Images {
    pub fn of(&self, paulis: &[Pauli]) -> &PauliString {
        &self.0[number(paulis.iter().copied())]
    }
}

/// A unitary on the places where it stands.
struct Step {
    places: Vec<usize>,
    images: Images,
}

/// Unitaries one after the other.
pub struct Circuit {
    n: usize,
    steps: Vec<Step>,
}

impl Circuit {
    fn new(n: usize) -> Circuit {
        Circuit { n, steps: vec![] }
    }

    fn push(&mut self, places: Vec<usize>, images: Images) {
        self.steps.push(Step { places, images });
    }

    /// An operator after the circuit, as an operator before it: the last step comes first. What stands on a step's places becomes its image; no other
    /// place changes.
    pub fn pulled(&self, mut s: PauliString) -> PauliString {
        for Step { places, images } in self.steps.iter().rev() {
            let image = &images.0[number(places.iter().map(|&k| s.at[k]))];
            places.iter().zip(&image.at).for_each(|(&k, &p)| s.at[k] = p);
            s = s.with_phase(image.phase);
        }
        s
    }

    /// The covariance's entry in a row and a column.
    pub fn entry(&self, row: usize, column: usize) -> f64 {
        self.pulled(PauliString::pair(self.n, row, column)).value()
    }

    /// The product of Z on the listed places.
    pub fn product(&self, listed: &[usize]) -> f64 {
        self.pulled(PauliString::zs(self.n, listed)).value()
    }

    /// Lists of places, one bit each, whose products of Z are not zero. Every other such list is the sum of some of them, where twice is not at all.
    pub fn certain(&self) -> Vec<u128> {
        let (mut certain, mut rest) = (vec![], Vec::<(u128, u128)>::new());
        for k in 0..self.n {
            let string = self.pulled(PauliString::zs(self.n, &[k]));
            let bit = |(q, p): (usize, &Pauli)| u128::from(matches!(p, X | Y)) << q;
            let (mut flips, mut list) = (string.at.iter().enumerate().map(bit).sum(), 1 << k);
            for (other, more) in &rest {
                if flips >> other.trailing_zeros() & 1 == 1 {
                    (flips, list) = (flips ^ other, list ^ more);
                }
            }
            match flips {
                0 => certain.push(list),
                _ => rest.push((flips, list)),
            }
        }
        certain
    }
}

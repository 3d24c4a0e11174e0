//! Checks of the strings: products, blocks and tables beside matrices, all signed permutations, and whole circuits beside a state vector.

use super::blocks::{self, Row};
use super::lists::on;
use super::{gates, Images, Pauli, PauliString, PAULIS};
use crate::families::pieces::matrix as unitary;
use crate::rng::Rng;
use crate::tape::{NAMED1, NAMED2};
use crate::vector::Vector;
use original::access::detect::access::{dag4, kron, majorana_map1, majorana_map2, mul4};
use original::gate::{Gate, Mat2, Mat4};
use original::Complex64;
use std::f64::consts::FRAC_PI_2;
use std::fmt;

/// Largest difference between numbers that are the same.
const CLOSE: f64 = 1e-9;
/// Qubits beside the state vector at most, and gates.
const QUBITS: usize = 4;
const GATES: usize = 12;

/// What was compared.
#[derive(Default)]
pub struct Outcome {
    /// Products of two Paulis, and of two strings on two places, beside matrices.
    products: usize,
    /// Pairs of Majorana operators.
    pairs: usize,
    /// Signed permutations, and products of images of theirs.
    permutations: usize,
    images: usize,
    /// Gates, lists of gates on two qubits, and matchgates among these, beside matrices: of each the image of every string.
    gates: usize,
    lists: usize,
    matchgates: usize,
    /// Strings on up to four qubits beside a state vector, and those whose value is not zero.
    strings: usize,
    pub values: usize,
    pub differ: usize,
}

pub fn checks(seed: u64, count: usize) -> Outcome {
    let rng = &mut Rng::new(seed);
    let mut out = Outcome::default();
    out.products();
    out.majoranas();
    out.permutations();
    out.tables();
    (0..count).for_each(|_| out.of_two(rng));
    (0..count).for_each(|_| out.beside_vector(rng));
    out
}

impl Outcome {
    /// Whether there was enough of everything, and nothing differed.
    pub fn well(&self, count: usize) -> bool {
        let enough = self.permutations == 392 && 10 * self.matchgates > count;
        self.differ == 0 && enough && 12 * self.values > self.strings
    }

    fn note(&mut self, well: bool) {
        self.differ += usize::from(!well);
    }

    fn products(&mut self) {
        for s in of_places(1).into_iter().chain(of_places(2)) {
            for t in of_places(s.at.len()) {
                let well = near(&matrix(&s.times(&t)), &mul4(&matrix(&s), &matrix(&t)));
                self.products += 1;
                self.note(well);
            }
        }
    }

    /// On up to four places: different Majorana operators change their sign with their order, each is its own inverse, and -i times the two of a place is
    /// Z there.
    fn majoranas(&mut self) {
        for n in 1..=4 {
            for (a, b) in (0..2 * n).flat_map(|a| (0..2 * n).map(move |b| (a, b))) {
                let [s, t] = [a, b].map(|k| PauliString::majorana(n, k));
                let turned = t.times(&s).with_phase(2);
                self.pairs += 1;
                self.note(match a == b {
                    true => s.times(&t) == PauliString::identity(n),
                    false => s.times(&t) == turned,
                });
                if b == a + 1 && a % 2 == 0 {
                    self.note(PauliString::pair(n, a, b) == PauliString::zs(n, &[a / 2]));
                }
            }
        }
        self.note(PauliString::zs(4, &[1, 3, 1, 2, 3, 1]) == PauliString::zs(4, &[2, 1]));
    }

    /// All signed permutations of two operators and of four: each operator goes to its row's, and a product to the product of the images.
    fn permutations(&mut self) {
        for modes in [1, 2] {
            for rows in signed_permutations(2 * modes) {
                let images = blocks::images(&rows);
                self.permutations += 1;
                for (k, row) in rows.iter().enumerate() {
                    let image = images.of(&PauliString::majorana(modes, k).at);
                    let sent = PauliString::majorana(modes, row.column);
                    self.note(*image == sent.with_phase(if row.minus { 2 } else { 0 }));
                }
                self.respects_products(&images, modes);
            }
        }
    }

    fn respects_products(&mut self, images: &Images, modes: usize) {
        for s in of_places(modes) {
            for t in of_places(modes) {
                let product = s.times(&t);
                let image = images.of(&product.at).clone().with_phase(product.phase);
                self.images += 1;
                self.note(image == images.of(&s.at).times(images.of(&t.at)));
            }
        }
    }

    /// Every gate that has images, on the qubits in either order.
    fn tables(&mut self) {
        for g in all_gates() {
            self.gates += 1;
            self.list(&[g]);
        }
    }

    /// A random list on two qubits; if it is a matchgate, its block too.
    fn of_two(&mut self, rng: &mut Rng) {
        let all = all_gates();
        let list: Vec<Gate> = (0..rng.between(1, 4)).map(|_| rng.pick(&all)).collect();
        self.lists += 1;
        self.list(&list);
        let u = unitary(&list);
        let rows = blocks::rows(majorana_map2(&u).0.as_flattened(), 4);
        if let Some(rows) = rows.filter(|_| majorana_map2(&u).1 < CLOSE) {
            self.matchgates += 1;
            self.images_of(&u, &blocks::images(&rows));
        }
        let one = rng.pick(&NAMED1).1;
        let (map, residual) = majorana_map1(&one.matrix_1q().expect("a gate of one qubit"));
        if let Some(rows) = blocks::rows(map.as_flattened(), 2).filter(|_| residual < CLOSE) {
            self.note(gates::images(&one) == Some(blocks::images(&rows)));
        }
    }

    /// A list of gates on two qubits beside its matrix.
    fn list(&mut self, list: &[Gate]) {
        let (circuit, u) = (gates::circuit(2, list).expect("images of each gate"), unitary(list));
        for s in of_places(2) {
            self.note(near(&matrix(&circuit.pulled(s.clone())), &conjugated(&u, &s)));
        }
    }

    fn images_of(&mut self, u: &Mat4, images: &Images) {
        for s in of_places(2) {
            self.note(near(&matrix(images.of(&s.at)), &conjugated(u, &s)));
        }
    }

    /// A random string after random gates: the state vector tells its value after gates that turn each X and Y into Z.
    fn beside_vector(&mut self, rng: &mut Rng) {
        let n = rng.between(1, QUBITS);
        let mut list: Vec<Gate> = (0..rng.below(GATES + 1)).map(|_| any_gate(rng, n)).collect();
        let at: Vec<Pauli> = (0..n).map(|_| rng.pick(&PAULIS)).collect();
        let s = PauliString { phase: rng.below(4) as u8, at };
        let value =
            gates::circuit(n, &list).expect("images of each gate").pulled(s.clone()).value();
        for (q, pauli) in s.at.iter().enumerate() {
            match pauli {
                Pauli::X => list.push(Gate::H(q)),
                Pauli::Y => list.push(Gate::Sx(q)),
                _ => {}
            }
        }
        let listed: Vec<usize> = (0..n).filter(|&q| s.at[q] != Pauli::I).collect();
        let real = [1.0, 0.0, -1.0, 0.0][usize::from(s.phase)];
        let well = (value - real * Vector::run(n, &list).product(&listed)).abs() < CLOSE;
        self.strings += 1;
        self.values += usize::from(value != 0.0);
        self.note(well);
    }
}

impl fmt::Display for Outcome {
    fn fmt(&self, f: &mut fmt::Formatter<'_>) -> fmt::Result {
        let Outcome { products, pairs, permutations, images, gates, lists, matchgates, .. } = self;
        let Outcome { strings, values, differ, .. } = self;
        write!(f, "{products} products; {pairs} pairs of Majorana operators; {permutations} signed permutations ")?;
        write!(f, "with {images} products of images; {gates} gates and ")?;
        write!(f, "{lists} lists on two qubits, {matchgates} of them matchgates, beside matrices; {strings} strings beside a state ")?;
        write!(f, "vector, {values} not zero; {differ} differ")
    }
}

/// Every string on so many places.
fn of_places(places: usize) -> Vec<PauliString> {
    let mut all = vec![PauliString::identity(0)];
    for _ in 0..places {
        let longer = |s: &PauliString| {
            let at = s.at.clone();
            PAULIS.map(|p| PauliString { phase: 0, at: [&at[..], &[p]].concat() })
        };
        all = all.iter().flat_map(longer).collect();
    }
    all
}

/// The matrix of a string on one place or two; of one, beside the identity.
fn matrix(s: &PauliString) -> Mat4 {
    let of = |k: usize| pauli(s.at.get(k).copied().unwrap_or(Pauli::I));
    let phase = Complex64::new(0.0, 1.0).powu(s.phase.into());
    kron(&of(0), &of(1)).map(|row| row.map(|x| phase * x))
}

fn pauli(p: Pauli) -> Mat2 {
    let [zero, one, i] = [(0.0, 0.0), (1.0, 0.0), (0.0, 1.0)].map(|(a, b)| Complex64::new(a, b));
    match p {
        Pauli::I => [[one, zero], [zero, one]],
        Pauli::X => [[zero, one], [one, zero]],
        Pauli::Y => [[zero, -i], [i, zero]],
        Pauli::Z => [[one, zero], [zero, -one]],
    }
}

/// U* s U.
fn conjugated(u: &Mat4, s: &PauliString) -> Mat4 {
    mul4(&dag4(u), &mul4(&matrix(s), u))
}

fn near(a: &Mat4, b: &Mat4) -> bool {
    a.as_flattened().iter().zip(b.as_flattened()).all(|(x, y)| (x - y).norm() < CLOSE)
}

/// Every gate that has images: of one qubit on either of two, of two in either order, quarter turns of every kind.
fn all_gates() -> Vec<Gate> {
    let mut all = vec![];
    for (a, b) in [(0, 1), (1, 0)] {
        all.extend(NAMED1.map(|row| on(row.1, a, b)));
        all.extend(NAMED2.map(|row| on(row.1, a, b)));
        for quarters in -4..=4 {
            let t = f64::from(quarters) * FRAC_PI_2;
            all.extend([Gate::Rx(a, t), Gate::Ry(a, t), Gate::Rz(a, t), Gate::Phase(a, t)]);
            if quarters % 2 == 0 {
                all.push(Gate::CPhase(a, b, t));
            }
        }
    }
    all
}

fn any_gate(rng: &mut Rng, n: usize) -> Gate {
    let a = rng.below(n);
    match n > 1 && rng.chance(1, 2) {
        true => on(rng.pick(&NAMED2).1, a, (a + rng.between(1, n - 1)) % n),
        false => on(rng.pick(&NAMED1).1, a, a),
    }
}

/// All signed permutations of so many operators.
fn signed_permutations(width: usize) -> Vec<Vec<Row>> {
    let mut all = vec![vec![]];
    for _ in 0..width {
        let longer = |rows: &Vec<Row>| {
            let free = |column: &usize| rows.iter().all(|row| row.column != *column);
            let rows = rows.clone();
            let next = (0..width).filter(free).flat_map(|column| {
                [false, true].map(|minus| [&rows[..], &[Row { minus, column }]].concat())
            });
            next.collect::<Vec<_>>()
        };
        all = all.iter().flat_map(longer).collect();
    }
    all
}

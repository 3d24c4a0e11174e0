//! Gate tables and products of small matrices, by the original's own functions.

use super::tag;
use crate::bits::word;
use crate::records::Records;
use crate::rng::Rng;
use crate::tape::{entries, NAMED1, NAMED2};
use original::access::detect::access as detect;
use original::gate::{Mat2, Mat4};
use original::Complex64;

/// Krons of the first list.
const FIRST_KRONS: usize = 10;
/// Products of each kind (named, kron, dense, special) in the first list.
const FIRST_PRODUCTS: [usize; 4] = [5, 4, 3, 8];

/// The matrices of all named gates.
pub fn add_tables(out: &mut Records) {
    for (code, gate) in NAMED1 {
        out.table(tag::TABLE1, code, &entries(&gate.matrix_1q().expect("a one-qubit gate")));
    }
    for (code, gate) in NAMED2 {
        out.table(tag::TABLE2, code, &entries(&gate.matrix_2q().expect("a two-qubit gate")));
    }
}

/// All products of two named one-qubit gates, and some adjoints.
pub fn add_two(out: &mut Records) {
    for a in named1() {
        for b in named1() {
            out.floats(tag::MUL2, &[&entries(&a), &entries(&b), &entries(&detect::mul2(&a, &b))]);
        }
    }
    let mut rng = Rng::new(3);
    for a in
        [named1()[3], named1()[5], named1()[7], dense(&mut rng), dense(&mut rng), special(&mut rng)]
    {
        out.floats(tag::DAG2, &[&entries(&a), &entries(&detect::dag2(&a))]);
    }
}

/// The first part of the krons and of each kind of product, and some adjoints and exchanges.
pub fn add_first(out: &mut Records) {
    krons()[..FIRST_KRONS].iter().for_each(|k| kron(out, k));
    for (kind, first) in products().iter().zip(FIRST_PRODUCTS) {
        kind[..first].iter().for_each(|p| mul4(out, p));
    }
    let mut rng = Rng::new(4);
    let some: [Mat4; 4] = [named2()[0], named2()[3], dense(&mut rng), special(&mut rng)];
    for a in some {
        out.floats(tag::DAG4, &[&entries(&a), &entries(&detect::dag4(&a))]);
        out.floats(tag::SWAP_QUBITS, &[&entries(&a), &entries(&detect::swap_qubits(&a))]);
    }
}

/// The other krons and products.
pub fn add_rest(out: &mut Records) {
    krons()[FIRST_KRONS..].iter().for_each(|k| kron(out, k));
    for (kind, first) in products().iter().zip(FIRST_PRODUCTS) {
        kind[first..].iter().for_each(|p| mul4(out, p));
    }
}

fn kron(out: &mut Records, (a, b): &(Mat2, Mat2)) {
    out.floats(tag::KRON, &[&entries(a), &entries(b), &entries(&detect::kron(a, b))]);
}

fn mul4(out: &mut Records, (a, b): &(Mat4, Mat4)) {
    out.floats(tag::MUL4, &[&entries(a), &entries(b), &entries(&detect::mul4(a, b))]);
}

fn named1() -> [Mat2; 9] {
    NAMED1.map(|(_, gate)| gate.matrix_1q().expect("a one-qubit gate"))
}

fn named2() -> [Mat4; 5] {
    NAMED2.map(|(_, gate)| gate.matrix_2q().expect("a two-qubit gate"))
}

/// Pairs for krons: named gates, dense and special entries, in turn.
fn krons() -> Vec<(Mat2, Mat2)> {
    let mut rng = Rng::new(5);
    let mut one = |k: usize| match k % 5 {
        3 => dense(&mut rng),
        4 => special(&mut rng),
        _ => rng.pick(&named1()),
    };
    (0..30).map(|k| (one(k), one(k + k / 5))).collect()
}

/// Pairs for products: all of named gates; krons with named gates; dense; special.
fn products() -> [Vec<(Mat4, Mat4)>; 4] {
    let rng = &mut Rng::new(6);
    let named = (0..25).map(|k| (named2()[k % 5], named2()[(k % 5 + k / 5 + 1) % 5])).collect();
    let krons = (0..24).map(|k| with_kron(rng, k % 2 == 0)).collect();
    let dense = (0..16).map(|_| (dense(rng), dense(rng))).collect();
    let special = (0..20).map(|_| skip_shows(rng)).collect();
    [named, krons, dense, special]
}

/// A kron of named or dense gates times a named gate, in either order.
fn with_kron(rng: &mut Rng, first: bool) -> (Mat4, Mat4) {
    let a = if rng.chance(1, 3) { dense(rng) } else { rng.pick(&named1()) };
    let k = detect::kron(&a, &rng.pick(&named1()));
    let g = rng.pick(&named2());
    if first {
        (k, g)
    } else {
        (g, k)
    }
}

/// Special entries for which the original, that skips a zero entry of the
/// first matrix, differs from a product that skips nothing.
fn skip_shows(rng: &mut Rng) -> (Mat4, Mat4) {
    loop {
        let (a, b) = (special(rng), special(rng));
        let words = |m: &Mat4| -> Vec<u64> { entries(m).iter().map(|&x| word(x)).collect() };
        if words(&detect::mul4(&a, &b)) != words(&without_skip(&a, &b)) {
            return (a, b);
        }
    }
}

fn without_skip(a: &Mat4, b: &Mat4) -> Mat4 {
    let mut m = [[Complex64::new(0.0, 0.0); 4]; 4];
    for i in 0..4 {
        for k in 0..4 {
            for j in 0..4 {
                m[i][j] += a[i][k] * b[k][j];
            }
        }
    }
    m
}

/// Entries from -1 to 1.
fn dense<const K: usize>(rng: &mut Rng) -> [[Complex64; K]; K] {
    let mut number = || 2.0 * rng.unit() - 1.0;
    let mut entry = || Complex64::new(number(), number());
    std::array::from_fn(|_| std::array::from_fn(|_| entry()))
}

/// Half of the entries are zeros of either sign, the others of every kind that a float has.
fn special<const K: usize>(rng: &mut Rng) -> [[Complex64; K]; K] {
    let kinds = [
        1.0,
        -0.5,
        f64::INFINITY,
        f64::NEG_INFINITY,
        f64::NAN,
        f64::from_bits(3),
        -1e-310,
        f64::MAX,
        0.0,
        -0.0,
    ];
    let mut entry = || match rng.chance(1, 2) {
        true => Complex64::new(rng.pick(&[0.0, -0.0]), rng.pick(&[0.0, -0.0])),
        false => Complex64::new(rng.pick(&kinds), rng.pick(&kinds)),
    };
    std::array::from_fn(|_| std::array::from_fn(|_| entry()))
}

//! The gates of a list as a circuit of strings on qubits, from tables alone: no fusing, no modes, no order.

use super::{Circuit, Images, Pauli, PauliString};
use original::gate::Gate;
use std::f64::consts::FRAC_PI_2;

/// U* P U for each Pauli P, from I or II on.
const ONE: &str = "I X Y Z";
const X: &str = "I X -Y -Z";
const Y: &str = "I -X Y -Z";
const Z: &str = "I -X -Y Z";
const S: &str = "I -Y X Z";
const SDG: &str = "I Y -X Z";
const SX: &str = "I X -Z Y";
const SXDG: &str = "I X Z -Y";
const SY: &str = "I Z Y -X";
const SYDG: &str = "I -Z Y X";
const H: &str = "I Z -Y X";
const TWO: &str = "II IX IY IZ XI XX XY XZ YI YX YY YZ ZI ZX ZY ZZ";
const CNOT: &str = "II IX ZY ZZ XX XI YZ -YY YX YI -XZ XY ZI ZX IY IZ";
const CZ: &str = "II ZX ZY IZ XZ YY -YX XI YZ -XY XX YI ZI IX IY ZZ";
const SWAP: &str = "II XI YI ZI IX XX YX ZX IY XY YY ZY IZ XZ YZ ZZ";
const ISWAP: &str = "II -YZ XZ ZI -ZY XX YX -IY ZX XY YY IX IZ -YI XI ZZ";
const ISWAPDG: &str = "II YZ -XZ ZI ZY XX YX IY -ZX XY YY -IX IZ YI -XI ZZ";

/// The images of no quarter turn, and of one to three, about each axis.
const ABOUT_X: [&str; 4] = [ONE, SX, X, SXDG];
const ABOUT_Y: [&str; 4] = [ONE, SY, Y, SYDG];
const ABOUT_Z: [&str; 4] = [ONE, S, Z, SDG];

/// The circuit of gates on n qubits; none if one of them takes a Pauli to no Pauli.
pub fn circuit(n: usize, gates: &[Gate]) -> Option<Circuit> {
    let mut circuit = Circuit::new(n);
    for g in gates {
        circuit.push(g.qubits(), read(table(g)?));
    }
    Some(circuit)
}

/// What a gate makes of the Paulis on its qubits, the gate's first qubit first.
pub fn images(g: &Gate) -> Option<Images> {
    table(g).map(read)
}

fn table(g: &Gate) -> Option<&'static str> {
    Some(match *g {
        Gate::I(_) => ONE,
        Gate::X(_) => X,
        Gate::Y(_) => Y,
        Gate::Z(_) => Z,
        Gate::S(_) => S,
        Gate::Sdg(_) => SDG,
        Gate::Sx(_) => SX,
        Gate::Sxdg(_) => SXDG,
        Gate::H(_) => H,
        Gate::Rx(_, t) => ABOUT_X[quarters(t)?],
        Gate::Ry(_, t) => ABOUT_Y[quarters(t)?],
        Gate::Rz(_, t) | Gate::Phase(_, t) => ABOUT_Z[quarters(t)?],
        Gate::Cnot(..) => CNOT,
        Gate::Cz(..) => CZ,
        Gate::CPhase(_, _, t) if quarters(t)? % 2 == 0 => [TWO, CZ][quarters(t)? / 2],
        Gate::Swap(..) => SWAP,
        Gate::ISwap(..) => ISWAP,
        Gate::ISwapdg(..) => ISWAPDG,
        _ => return None,
    })
}

/// How many quarter turns an angle is, from 0 to 3, if it is the float of so many.
fn quarters(t: f64) -> Option<usize> {
    let turns = (t / FRAC_PI_2).round();
    (t == turns * FRAC_PI_2).then_some(turns.rem_euclid(4.0) as usize)
}

fn read(table: &str) -> Images {
    Images(table.split(' ').map(string).collect())
}

/// The string of a text.
fn string(text: &str) -> PauliString {
    let (phase, paulis) = text.strip_prefix('-').map_or((0, text), |rest| (2, rest));
    let pauli = |letter| match letter {
        'I' => Pauli::I,
        'X' => Pauli::X,
        'Y' => Pauli::Y,
        'Z' => Pauli::Z,
        _ => panic!("`{letter}` is no Pauli"),
    };
    PauliString { phase, at: paulis.chars().map(pauli).collect() }
}

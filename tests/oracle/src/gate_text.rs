//! Gates as lines of text: the original's name, the qubits, then each angle as
//! the word of its bits.

use crate::bits;
use original::gate::Gate;

/// Name, number of qubits and number of angles of every gate.
const GATES: [(&str, usize, usize); 23] = [
    ("I", 1, 0),
    ("H", 1, 0),
    ("X", 1, 0),
    ("Y", 1, 0),
    ("Z", 1, 0),
    ("S", 1, 0),
    ("Sdg", 1, 0),
    ("T", 1, 0),
    ("Tdg", 1, 0),
    ("Sx", 1, 0),
    ("Sxdg", 1, 0),
    ("Rx", 1, 1),
    ("Ry", 1, 1),
    ("Rz", 1, 1),
    ("Phase", 1, 1),
    ("U", 1, 3),
    ("Cnot", 2, 0),
    ("Cz", 2, 0),
    ("Swap", 2, 0),
    ("ISwap", 2, 0),
    ("ISwapdg", 2, 0),
    ("CPhase", 2, 1),
    ("Ccx", 3, 0),
];

/// The gate of a line, split into words.
pub fn parse(words: &[&str]) -> Result<Gate, String> {
    let (name, rest) = words.split_first().ok_or("an empty line")?;
    let row = GATES.iter().find(|row| row.0 == *name);
    let &(_, qubits, angles) = row.ok_or_else(|| format!("`{name}` is no gate"))?;
    if rest.len() != qubits + angles {
        return Err(format!("{name} takes {qubits} qubits and {angles} angles"));
    }
    let q: Vec<usize> = rest[..qubits].iter().map(|s| number(s)).collect::<Result<_, _>>()?;
    let t: Vec<f64> = rest[qubits..].iter().map(|s| bits::parse(s)).collect::<Result<_, _>>()?;
    Ok(make(name, &q, &t))
}

/// The same gate on other qubits.
pub fn on(g: &Gate, qubits: &[usize]) -> Gate {
    make(&name(g), qubits, &angles(g))
}

/// The name of a gate is that of the original's own debug text.
fn name(g: &Gate) -> String {
    let debug = format!("{g:?}");
    debug.split('(').next().expect("a name").to_string()
}

/// The line of a gate.
pub fn text(g: &Gate) -> String {
    let name = name(g);
    let qubits: String = g.qubits().iter().map(|q| format!(" {q}")).collect();
    format!("{name}{qubits}{}", bits::texts(&angles(g)))
}

/// Reads a decimal number.
pub fn number<T: std::str::FromStr>(s: &str) -> Result<T, String> {
    s.parse().map_err(|_| format!("`{s}` is not a number"))
}

fn angles(g: &Gate) -> Vec<f64> {
    match *g {
        Gate::Rx(_, t) | Gate::Ry(_, t) | Gate::Rz(_, t) | Gate::Phase(_, t) => vec![t],
        Gate::CPhase(_, _, t) => vec![t],
        Gate::U(_, th, ph, la) => vec![th, ph, la],
        _ => vec![],
    }
}

/// The gate of a name that stands in the table, with as many numbers as it says.
fn make(name: &str, q: &[usize], t: &[f64]) -> Gate {
    match name {
        "I" => Gate::I(q[0]),
        "H" => Gate::H(q[0]),
        "X" => Gate::X(q[0]),
        "Y" => Gate::Y(q[0]),
        "Z" => Gate::Z(q[0]),
        "S" => Gate::S(q[0]),
        "Sdg" => Gate::Sdg(q[0]),
        "T" => Gate::T(q[0]),
        "Tdg" => Gate::Tdg(q[0]),
        "Sx" => Gate::Sx(q[0]),
        "Sxdg" => Gate::Sxdg(q[0]),
        "Rx" => Gate::Rx(q[0], t[0]),
        "Ry" => Gate::Ry(q[0], t[0]),
        "Rz" => Gate::Rz(q[0], t[0]),
        "Phase" => Gate::Phase(q[0], t[0]),
        "U" => Gate::U(q[0], t[0], t[1], t[2]),
        "Cnot" => Gate::Cnot(q[0], q[1]),
        "Cz" => Gate::Cz(q[0], q[1]),
        "Swap" => Gate::Swap(q[0], q[1]),
        "ISwap" => Gate::ISwap(q[0], q[1]),
        "ISwapdg" => Gate::ISwapdg(q[0], q[1]),
        "CPhase" => Gate::CPhase(q[0], q[1], t[0]),
        "Ccx" => Gate::Ccx(q[0], q[1], q[2]),
        _ => unreachable!("{name} stands in the table"),
    }
}

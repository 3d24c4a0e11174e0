//! The stored tapes of the printing programs, filled up with labels, and the
//! text that document 01 asks for: the report and Z are the original's, and the
//! millionths are those of the exact value of its float.

use crate::families;
use crate::layout::{HEADER_BYTES, MAX_LABEL};
use crate::list::List;
use crate::reader::read;
use crate::rng::Rng;
use crate::run::{ordering_name, run};
use crate::tape::{header, label, record};
use crate::traced::traced;
use original::engines::gaussian::detect;
use original::gate::Gate;
use std::cmp::Ordering;

/// "over 60,000 bytes", "over 32 gates or 8 qubits": the most that are printed.
const BYTES: usize = 60_000;
const GATES: usize = 32;
const QUBITS: usize = 8;

/// A reader with a buffer of one page sees no more.
const PAGE: usize = 4096;

/// The longest label's record, and the shortest.
const LONGEST: usize = SHORTEST + MAX_LABEL;
const SHORTEST: usize = 3;

const NAMES: [&str; 4] = ["cut", "long", "most", "over"];

/// The tape of a name.
pub fn tape(name: &str) -> Result<Vec<u8>, String> {
    made(name).map(|(_, bytes)| bytes)
}

/// What the program prints of all tapes, each under its file's name.
pub fn text() -> String {
    let one = |name: &&str| {
        let (list, bytes) = made(name).expect("a tape");
        format!("{name}.bin\n{}", text_of(&list, &bytes))
    };
    NAMES.iter().map(one).collect()
}

/// `long` ends a byte beyond the page, in a gate that `cut` has not whole; `most` and `over` are of
/// one list, at the limit and a byte beyond it.
fn made(name: &str) -> Result<(List, Vec<u8>), String> {
    let [small, large] = lists();
    let (list, size, lost) = match name {
        "cut" => (small, PAGE + 1, 1),
        "long" => (small, PAGE + 1, 0),
        "most" => (large, BYTES, 0),
        "over" => (large, BYTES + 1, 0),
        _ => return Err(format!("`{name}` is no tape of the printing programs")),
    };
    let mut bytes = padded(&list, size);
    bytes.truncate(size - lost);
    Ok((list, bytes))
}

// ---- tapes

/// The first two random lists that suit.
fn lists() -> [List; 2] {
    let family = families::find("reorder").expect("a family");
    let mut rng = Rng::new(1);
    let mut next = || loop {
        let list = family(&mut rng.split());
        if suits(&list) {
            return list;
        }
    };
    [next(), next()]
}

/// Accepted with reordered wires, equal to the original in every bit, most Z no whole number; and
/// there is room for a label before each gate.
fn suits(list: &List) -> bool {
    let gates = list.gates.len();
    let records: usize = records(list).iter().map(Vec::len).sum();
    if list.n != QUBITS || gates > GATES || records + SHORTEST * gates + HEADER_BYTES > PAGE {
        return false;
    }
    let ran = run(list);
    let Ok(state) = ran.state else { return false };
    let z = |q| state.expectation_z_product(&[q]).expect("a qubit");
    let parted = (0..list.n).filter(|&q| (0.001..0.999).contains(&z(q).abs())).count();
    ran.report.ordering == Some(detect::Ordering::Paths)
        && 2 * parted > list.n
        && !traced(list).angled
}

/// The records of the gates, each with its matrix; that of a Swap would be no renaming.
fn records(list: &List) -> Vec<Vec<u8>> {
    list.gates.iter().map(|g| record(g, !matches!(g, Gate::Swap(..)))).collect()
}

/// The tape of so many bytes: before each gate its share of labels.
fn padded(list: &List, size: usize) -> Vec<u8> {
    let records = records(list);
    let mut out = header(list).expect("a header");
    let mut room = size - out.len() - records.iter().map(Vec::len).sum::<usize>();
    for (k, gate) in records.iter().enumerate() {
        let share = room / (records.len() - k);
        room -= share;
        out.extend(labels(share));
        out.extend(gate);
    }
    out
}

/// Labels of so many bytes, none so long that too little is left for another.
fn labels(bytes: usize) -> Vec<u8> {
    let mut out = Vec::new();
    while out.len() < bytes {
        let left = bytes - out.len();
        let size = if left <= LONGEST { left } else { LONGEST.min(left - SHORTEST) };
        let text: Vec<u8> =
            (0..size - SHORTEST).map(|k| b' ' + ((out.len() + k) % 95) as u8).collect();
        out.extend(label(&text));
    }
    out
}

// ---- texts

/// What is printed of a tape, whose list is accepted if the tape is whole.
fn text_of(list: &List, bytes: &[u8]) -> String {
    if bytes.len() > BYTES {
        return "too big\n".to_string();
    }
    match read(bytes) {
        Err([number, place]) => format!("refused {number} at {place}\n"),
        Ok(_) => accepted(list),
    }
}

fn accepted(list: &List) -> String {
    let ran = run(list);
    let (r, state) = (ran.report, ran.state.expect("an accepted run"));
    let (blocks, gaussian, bad) = (r.blocks, r.gaussian_blocks, r.non_gaussian);
    let interactions = r.interactions.len();
    let order: String = r.order.iter().map(|wire| format!(" {wire}")).collect();
    let z = |q| millionths(state.expectation_z_product(&[q]).expect("a qubit"));
    let lines: String = (0..r.n).map(|q| format!("q{q} {}\n", z(q))).collect();
    format!(
        "qubits {} blocks {blocks} gaussian {gaussian} bad {bad} interactions {interactions}\n",
        r.n
    ) + &format!("order {}{order}\n", ordering_name(&r))
        + &lines
}

/// "Z in millionths", "0 without a sign; `out` for NaN or magnitude 2 and more"; the program "rounds
/// the exact value half to even". Below 2 a float is a number of 53 digits over 2 to the power 52 or more.
fn millionths(x: f64) -> String {
    if x.is_nan() || x.abs() >= 2.0 {
        return "out".to_string();
    }
    let (fraction, exponent) = (x.to_bits() & ((1 << 52) - 1), x.abs().to_bits() >> 52);
    let digits = u128::from(fraction) + (u128::from(exponent.min(1)) << 52);
    let power = 1075 - exponent.max(1);
    let whole = 1u128.checked_shl(power as u32).map_or(0, |den| half_even(digits * 1_000_000, den));
    let sign = if x < 0.0 && whole > 0 { "-" } else { "" };
    format!("{sign}{whole}")
}

fn half_even(num: u128, den: u128) -> u128 {
    let (whole, rest) = (num / den, num % den);
    match rest.cmp(&(den - rest)) {
        Ordering::Less => whole,
        Ordering::Equal => whole + whole % 2,
        Ordering::Greater => whole + 1,
    }
}

//! How the cost of a call grows with the number of qubits n and of gates G.

use crate::circuits::{brick_wall, rotations};
use crate::clock::times;
use crate::layout::{MAX_GATES, MAX_QUBITS};
use crate::pieces::calls::{Both, Kind};
use crate::pieces::{tapes, Each};
use crate::rows::Row;
use crate::times::warm_heap;
use oracle::rng::Rng;

/// Numbers of qubits, with 1,000 gates where there are any; and numbers of gates, on 60 qubits.
const SIZES: [usize; 9] = [8, 12, 16, 24, 32, 48, 64, 96, MAX_QUBITS];
const GATES: [usize; 9] = [64, 96, 128, 192, 256, 384, 512, 768, MAX_GATES];
const QUBITS: usize = 60;

/// Rounds of which the least counts.
const ROUNDS: usize = 100;

/// A quantity: its name, what it is a function of, and the powers that are expected of it (two if it is a sum of both).
pub struct Quantity {
    pub name: &'static str,
    pub of: char,
    pub powers: &'static [u8],
}

const fn quantity(name: &'static str, of: char, powers: &'static [u8]) -> Quantity {
    Quantity { name, of, powers }
}

const OPERATION: Quantity = quantity("operation, 4-wide", 'n', &[1]);
const PRODUCT: Quantity = quantity("product of all", 'n', &[3]);
const SHOT: Quantity = quantity("shot", 'n', &[3]);
const RUN: Quantity = quantity("run, brick wall", 'n', &[0, 1]);
const COMPILE: Quantity = quantity("compile, brick wall", 'n', &[0]);
const WALL: Quantity = quantity("compile, brick wall", 'G', &[1]);
const TURNS: Quantity = quantity("compile, rotations", 'G', &[1]);
const STATE: Quantity = quantity("state", 'n', &[2]);

/// The quantities of which instructions and time are measured.
const COSTS: [Quantity; 7] = [OPERATION, PRODUCT, SHOT, RUN, COMPILE, WALL, TURNS];

impl Quantity {
    /// The name of the piece at a point.
    fn at(&self, x: usize) -> String {
        format!("{} {} = {x}", self.name, self.of)
    }

    fn points(&self) -> [usize; 9] {
        if self.of == 'n' {
            SIZES
        } else {
            GATES
        }
    }
}

/// One quantity, measured: the two sides at each point.
pub struct Curve {
    pub quantity: Quantity,
    pub unit: &'static str,
    pub points: Vec<(f64, [f64; 2])>,
}

impl Curve {
    /// The points of a quantity among these rows.
    fn of(quantity: Quantity, unit: &'static str, rows: &[Row]) -> Curve {
        let point = |x: usize| {
            let name = quantity.at(x);
            let row = rows.iter().find(|row| row.name == name);
            (x as f64, row.unwrap_or_else(|| panic!("{name} was not measured")).sides)
        };
        let points = quantity.points().map(point).to_vec();
        Curve { quantity, unit, points }
    }

    /// The power of a side: the slope of the straight line through the upper half of the points, in logarithms.
    fn power(&self, side: usize) -> f64 {
        let upper = &self.points[self.points.len() / 2..];
        let logs: Vec<[f64; 2]> = upper.iter().map(|(x, ys)| [x.ln(), ys[side].ln()]).collect();
        let mean = |k: usize| logs.iter().map(|log| log[k]).sum::<f64>() / logs.len() as f64;
        let (x, y) = (mean(0), mean(1));
        let with = |k: usize, m: f64| logs.iter().map(|l| (l[0] - x) * (l[k] - m)).sum::<f64>();
        with(1, y) / with(0, x)
    }

    fn print(&self) {
        let Quantity { name, of, powers } = &self.quantity;
        println!("\n{name}: {}", self.unit);
        println!("{of:>6} {:>14} {:>14} {:>8}", "original", "port", "ratio");
        for (x, [a, b]) in &self.points {
            println!("{x:>6} {a:>14.1} {b:>14.1} {:>8.2}", b / a);
        }
        let expected: Vec<String> = powers.iter().map(u8::to_string).collect();
        let [a, b] = [0, 1].map(|side| self.power(side));
        println!(" power {a:>14.2} {b:>14.2}   expected {}", expected.join(" to "));
    }
}

/// Every quantity at every point.
pub fn pieces(seed: u64, each: Each) {
    let rng = &mut Rng::new(seed);
    for n in SIZES {
        let both = Both::new(rng, n);
        both.applies(rng, &OPERATION.at(n), Kind::Two, each);
        both.product(&PRODUCT.at(n), each);
        both.shot(rng, &SHOT.at(n), each);
        let wall = brick_wall(n, tapes::GATES);
        tapes::whole_run(&RUN.at(n), &wall, each);
        tapes::compile(&COMPILE.at(n), &wall, each);
    }
    let turns = rotations(rng, QUBITS, MAX_GATES);
    for gates in GATES {
        tapes::compile(&WALL.at(gates), &brick_wall(QUBITS, gates), each);
        let mut first = turns.clone();
        first.gates.truncate(gates);
        tapes::compile(&TURNS.at(gates), &first, each);
    }
}

/// Takes the times; prints every curve, beside the instructions that were counted before.
pub fn curves(seed: u64, counts: &[Row]) -> Vec<Curve> {
    warm_heap();
    let mut least = Vec::new();
    pieces(seed, &mut |piece| least.push(times(ROUNDS, piece).least));
    let states = SIZES.map(|n| Row { name: STATE.at(n), sides: Both::bytes(n) });
    let mut all: Vec<Curve> = COSTS.map(|q| Curve::of(q, "instructions", counts)).into();
    all.push(Curve::of(STATE, "bytes", &states));
    all.extend(COSTS.map(|q| Curve::of(q, "time, ns", &least)));
    all.iter().for_each(Curve::print);
    all
}

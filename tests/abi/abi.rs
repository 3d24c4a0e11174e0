//! Calls the engine's library from Rust on many tapes.
//!
//! Good tapes: `compile` and `run` tell the same report; the state of a run is that of the vacuum with the run's own operations applied one by
//! one; queries that must agree do so bit for bit, and in their rows; on register tapes every answer is the bit register's. Damaged tapes: every
//! one is answered by both calls with the same number and place below 9, and refusals keep their promises about the slices.
//!
//!     abi [TAPES [SEED]]        TAPES good tapes and ten times as many damaged ones

#[path = "../../host/src/library.rs"]
mod jozkeral;
#[allow(dead_code)] // not every number is needed here
#[path = "../../host/src/layout.rs"]
mod layout;

use jozkeral::{Number, Refusal, Report, State, Work};
use layout::*;
use std::collections::BTreeMap;

struct Rng(u64);

impl Rng {
    fn next(&mut self) -> u64 {
        self.0 ^= self.0 << 13;
        self.0 ^= self.0 >> 7;
        self.0 ^= self.0 << 17;
        self.0
    }

    fn below(&mut self, n: usize) -> usize {
        (self.next() % n as u64) as usize
    }

    /// At least 0, below 1.
    fn draw(&mut self) -> f64 {
        (self.next() >> 11) as f64 / (1u64 << 53) as f64
    }
}

/// A tape, its number of qubits and gates, and its register.
struct Tape {
    bytes: Vec<u8>,
    n: usize,
    gates: usize,
    bits: Vec<bool>,
}

fn two_qubits(r: &mut Rng, n: usize) -> (usize, usize) {
    let a = r.below(n);
    let b = (a + 1 + r.below(n - 1)) % n;
    (a, b)
}

const TWO: [u8; 6] = [0x10, 0x11, 0x12, 0x13, 0x14, 0x1f];

/// A given matchgate: |01> and |10> turned by an angle, as by a hopping term.
fn hopping(r: &mut Rng, bytes: &mut Vec<u8>) {
    let (s, c) = (7.0 * r.draw()).sin_cos();
    let mut m = [[(0.0, 0.0); 4]; 4];
    m[0][0] = (1.0, 0.0);
    m[1][1] = (c, 0.0);
    m[2][2] = (c, 0.0);
    m[1][2] = (0.0, s);
    m[2][1] = (0.0, s);
    m[3][3] = (1.0, 0.0);
    for (re, im) in m.iter().flatten() {
        bytes.extend(f64::to_le_bytes(*re));
        bytes.extend(f64::to_le_bytes(*im));
    }
}

/// A tape of the codes that a bit register knows; with `any`, of all codes but Ccx and given single gates.
fn tape(r: &mut Rng, any: bool) -> Tape {
    let n = 1 + r.below(6);
    let gates = r.below(12);
    let flags = r.below(8) as u8;
    let mut t = Tape { bytes: vec![0x51, 0x48, n as u8, flags], n, gates, bits: vec![false; n] };
    t.bytes.extend([0.0f64, 1e-9, 0.001][r.below(3)].to_le_bytes());
    t.bytes.extend(1152u64.to_le_bytes());
    for _ in 0..gates {
        if r.below(8) == 0 {
            t.bytes.extend(b"\x51\x4c\x03a b");
        }
        if n > 1 && r.below(2) == 0 {
            let (a, b) = two_qubits(r, n);
            let code = if any { TWO[r.below(6)] } else { 0x12 + r.below(3) as u8 };
            t.bytes.extend([0x51, 0x47, code, a as u8, b as u8]);
            if code == 0x1f {
                hopping(r, &mut t.bytes);
            }
            t.bits.swap(a, b);
        } else {
            let a = r.below(n);
            let code = if any { r.below(9) as u8 } else { [0, 2, 3, 4, 5, 6][r.below(6)] };
            t.bytes.extend([0x51, 0x47, code, a as u8]);
            t.bits[a] ^= code == 2 || code == 3;
        }
    }
    t
}

fn same(a: &[f64], b: &[f64]) -> bool {
    a.len() == b.len() && a.iter().zip(b).all(|(x, y)| x.to_bits() == y.to_bits())
}

/// Whether every number of a report is zero, as in a refusal.
fn is_zero(report: &Report) -> bool {
    report.words == [0; REPORT_WORDS]
        && report.measures == [0.0; MEASURES]
        && report.tables == [0; TABLE_PLACES]
}

/// Work that is not zero before the call.
fn full(gates: usize, n: usize) -> Work {
    let mut work = Work::new(gates, n);
    fill(&mut work);
    work
}

fn fill(work: &mut Work) {
    work.floats.fill(1.0);
    work.marks.fill(1);
}

/// The vacuum of n qubits: an empty tape run.
fn vacuum(n: usize) -> Vec<f64> {
    let mut bytes = vec![0x51, 0x48, n as u8, 0, 0, 0, 0, 0, 0, 0, 0, 0];
    bytes.extend(u64::MAX.to_le_bytes());
    let mut state = vec![5.0; state_places(n)];
    jozkeral::run(&bytes, &mut full(0, n), &mut [], &mut state).1.expect("an empty tape runs");
    state
}

/// Both calls on a tape; the state and the mode table if it runs.
fn both(t: &Tape) -> Option<(Vec<f64>, Vec<u16>)> {
    let places = ops_places(t.gates, t.n);
    let (mut w, mut ops, mut ops2) = (full(t.gates, t.n), vec![7.0; places], vec![7.0; places]);
    let mut state = vec![7.0; state_places(t.n) + 3];
    let (c, compiled) = jozkeral::compile(&t.bytes, &mut w, &mut ops);
    assert_eq!(compiled, Ok(()), "a tape of good records compiles");
    assert!(w.floats.iter().all(|x| x.to_bits() == 0) && w.marks.iter().all(|x| *x == 0));
    let [blocks, gaussian, bad, interactions] =
        [word::BLOCKS, word::GAUSSIAN, word::BAD, word::INTERACTIONS].map(|k| c.words[k]);
    assert_eq!(blocks, gaussian + bad + interactions);
    let (r, ran) = jozkeral::run(&t.bytes, &mut w, &mut ops2, &mut state);
    if let Err(no) = ran {
        assert!((11..=13).contains(&no.number) && no.place == 0);
        assert!(is_zero(&r));
        assert!(ops2.iter().chain(&state).all(|x| *x == 7.0));
        return None;
    }
    assert_eq!(c, r);
    assert!(same(&ops, &ops2));
    let used = OP_PLACES * r.operations();
    assert!(ops[used..].iter().all(|x| *x == 7.0));
    assert!(state.split_off(state_places(t.n)).iter().all(|x| *x == 7.0));
    let mut again = vacuum(t.n);
    for op in ops[..used].chunks(OP_PLACES) {
        jozkeral::apply(t.n, &mut again, r.modes(), op).expect("an operation of a run applies");
    }
    assert!(same(&again, &state));
    Some((state, r.modes().to_vec()))
}

/// Queries that are two ways to ask one thing.
fn agree(r: &mut Rng, s: State) {
    let mut work = vec![3.0; query_places(s.n)];
    let index = r.next();
    let all: Vec<usize> = (0..s.n).collect();
    let bits: Vec<u8> = all.iter().map(|q| (index >> q & 1) as u8).collect();
    let p = s.probability(index, r.next(), &mut work).unwrap();
    let marginal = s.marginal_probability(&all, &bits, &mut work).unwrap();
    assert_eq!(p.to_bits(), marginal.value.to_bits());
    assert!(is_well(marginal, s.n));
    let (i, j) = (r.below(s.n), r.below(s.n));
    let mut product = |list: &[usize]| s.expectation_z_product(list, &mut work);
    let (z, zz) = (product(&[i]).unwrap(), product(&[i, j]).unwrap());
    assert!(is_well(z, 1) && is_well(zz, 2));
    let value = entry(s, i);
    assert_eq!(told(z), told(Number { value, row: (value == 0.0).then_some(0) }));
    assert_eq!(told(z), told(product(&[j, i, j]).unwrap()));
    assert_eq!(told(zz), told(product(&[j, i]).unwrap()));
    assert_eq!(told(zz), told(product(&[i, i, j, i]).unwrap()));
    assert_eq!(product(&[s.n]), Err(Refusal { number: 19, place: 0 }));
    assert_eq!(product(&[i, s.n]), Err(Refusal { number: 19, place: 1 }));
    assert!(work.iter().take(4).all(|x| x.to_bits() == 0));
    let mut few = [3.0; query_places(1)];
    let refused = Err(Refusal { number: 20, place: 0 });
    assert_eq!((s.expectation_z_product(&[i], &mut few[1..]), few), (refused, [3.0; 4]));
    assert_eq!(told(s.expectation_z_product(&[i], &mut few).unwrap()), told(z));
    assert_eq!(few.map(f64::to_bits), [0; 4]);
}

/// A number in every bit, and its row.
fn told(x: Number) -> (u64, Option<usize>) {
    (x.value.to_bits(), x.row)
}

/// Whether a number of so many modes at most has a row only if it is 0.0, and one that may be.
fn is_well(x: Number, modes: usize) -> bool {
    x.row.map_or(true, |row| x.value.to_bits() == 0 && row % 2 == 0 && row < 2 * modes)
}

/// Z of a qubit as the state has it: its entry times both signs, a zero without a sign.
fn entry(s: State, q: usize) -> f64 {
    let row = 2 * usize::from(s.modes[q]);
    let (matrix, signs) = s.slice.split_at(covariance_places(s.n));
    let z = matrix[2 * s.n * row + row + 1] * signs[row] * signs[row + 1];
    if z == 0.0 {
        0.0
    } else {
        z
    }
}

/// The bit register's answers.
fn register(r: &mut Rng, s: State, bits: &[bool]) {
    let mut work = vec![3.0; query_places(s.n)];
    let sign = |b: bool| if b { -1.0 } else { 1.0 };
    for (q, b) in bits.iter().enumerate() {
        assert_eq!(s.expectation_z_product(&[q], &mut work), Ok(sign(*b).into()));
    }
    let list: Vec<usize> = (0..r.below(9)).map(|_| r.below(s.n)).collect();
    let odd = list.iter().filter(|q| bits[**q]).count() % 2 == 1;
    assert_eq!(s.expectation_z_product(&list, &mut work), Ok(sign(odd).into()));
    let asked: Vec<u8> = list.iter().map(|q| bits[*q] as u8 ^ (r.below(9) == 0) as u8).collect();
    let marginal = s.marginal_probability(&list, &asked, &mut work);
    assert_eq!(marginal, Ok(register_marginal(s.modes, bits, &list, &asked)));
    let index = bits.iter().rev().fold(0, |x, b| 2 * x + *b as u64);
    assert_eq!(s.probability(index, r.next(), &mut work), Ok(1.0));
    assert_eq!(s.probability(index ^ 1 << r.below(s.n), 0, &mut work), Ok(0.0));
    let draws: Vec<f64> = (0..3 * s.n).map(|_| r.draw()).collect();
    let mut out = [9u64; 7];
    s.sample(3, &draws, &mut work, &mut out).unwrap();
    assert_eq!(out, [index, 0, index, 0, index, 0, 9]);
}

/// A marginal of the bit register: the first wrong bit is found at the row of its mode among those that are listed, unless the list contradicts
/// itself.
fn register_marginal(modes: &[u16], bits: &[bool], list: &[usize], asked: &[u8]) -> Number {
    let mut right = BTreeMap::new();
    for (q, x) in list.iter().zip(asked) {
        let is_right = bits[*q] as u8 == *x;
        if right.insert(modes[*q], is_right).is_some_and(|before| before != is_right) {
            return Number::from(0.0);
        }
    }
    match right.values().position(|is_right| !is_right) {
        Some(place) => Number { value: 0.0, row: Some(2 * place) },
        None => Number::from(1.0),
    }
}

/// A tape with some bytes changed, taken out, put in, or cut off.
fn damage(r: &mut Rng, bytes: &mut Vec<u8>) {
    for _ in 0..1 + r.below(3) {
        let at = r.below(bytes.len().max(1));
        match r.below(6) {
            0 if at < bytes.len() => bytes[at] = r.next() as u8,
            1 if at < bytes.len() => bytes[at] ^= 1 << r.below(8),
            2 if at < bytes.len() => drop(bytes.remove(at)),
            3 => bytes.insert(at, [0x51, 0x47, 0x48, 0x4c, 0x1f, 0x0f][r.below(6)]),
            4 => bytes.truncate(at),
            _ => {
                bytes.extend([0x51, 0x47, r.below(0x22) as u8, r.below(4) as u8, r.below(4) as u8])
            }
        }
    }
}

/// What both calls say of any bytes; the number of the run.
fn damaged(bytes: &[u8], work: &mut Work) -> usize {
    fill(work);
    let mut ops = [7.0; OP_PLACES * 8];
    let mut state = [7.0; state_places(11)];
    let (report, answer) = jozkeral::compile(bytes, work, &mut ops);
    let label = jozkeral::label(bytes, 0);
    assert!(
        label.map_or(true, |x| x.iter().all(|b| (0x20..0x7f).contains(b)) && x.len() <= MAX_LABEL)
    );
    let touched = work.floats.iter().any(|x| *x != 1.0) || work.marks.iter().any(|x| *x != 1);
    if let Err(no) = answer {
        assert!((1..=10).contains(&no.number));
        let record = (4..=8).contains(&no.number);
        assert!(if record {
            (HEADER_BYTES..bytes.len()).contains(&(no.place as usize))
        } else {
            no.place == 0
        });
        assert!(is_zero(&report));
        assert!(ops.iter().all(|x| *x == 7.0));
        assert_eq!(touched, no.number == 10);
        assert!(no.number > 8 || label.is_none());
    }
    ops.fill(7.0);
    let (_, ran) = jozkeral::run(bytes, work, &mut ops, &mut state);
    match (answer, ran) {
        (Err(a), b) => assert_eq!(b, Err(a)),
        (Ok(()), Err(b)) => assert!((11..=15).contains(&b.number) && b.place == 0),
        (Ok(()), Ok(())) => {}
    }
    assert!(ran.is_ok() || ops.iter().chain(&state).all(|x| *x == 7.0));
    Refusal::told(&ran)[0] as usize
}

fn main() {
    let words: Vec<u64> = std::env::args().skip(1).map(|w| w.parse().expect("a number")).collect();
    let tapes = *words.first().unwrap_or(&100_000);
    let mut r = Rng(*words.get(1).unwrap_or(&20_250_301));
    let (mut ran, mut registers, mut numbers) = (0, 0, [0u64; 16]);
    for k in 0..tapes {
        let any = k % 2 == 0;
        let t = tape(&mut r, any);
        if let Some((state, modes)) = both(&t) {
            let s = State { n: t.n, slice: &state, modes: &modes };
            agree(&mut r, s);
            if !any {
                register(&mut r, s, &t.bits);
                registers += 1;
            }
            ran += 1;
        }
    }
    let mut work = full(20, 20);
    for _ in 0..10 * tapes {
        let any = r.below(2) == 0;
        let mut bytes = tape(&mut r, any).bytes;
        damage(&mut r, &mut bytes);
        numbers[damaged(&bytes, &mut work)] += 1;
    }
    println!("abi.rs: {tapes} tapes: {ran} ran, {registers} of them beside a register");
    print!("abi.rs: {} damaged tapes, by number:", 10 * tapes);
    for (number, count) in numbers.iter().enumerate().filter(|(_, count)| **count > 0) {
        print!(" {number}: {count}");
    }
    println!();
}

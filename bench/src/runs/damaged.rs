//! Damaged tapes: bytes changed, cut off or put in. Refusals must be those of the oracle's plain reader; a tape that is still
//! good is compared like any other if the original has gates for it.

use super::case::{flips, Case};
use super::counts::{hex, Counts};
use super::damage::damage;
use super::sides::{compare, foreign, Seen};
use crate::asks;
use crate::jozkeral;
use crate::lent::Lent;
use oracle::gate_text::on;
use oracle::list::List;
use oracle::query::Query;
use oracle::reader::{read, Record, Refused, Tape};
use oracle::rng::Rng;
use oracle::tape::{record, GIVEN4, NAMED1, NAMED2};
use original::gate::Gate;

/// What was seen of damaged tapes.
#[derive(Default)]
pub struct Tapes {
    tapes: usize,
    /// By question 1 to 8.
    refused: [usize; 9],
    /// Those that are still good.
    good: Counts,
    differ: usize,
    /// The shortest that differs.
    smallest: Option<Vec<u8>>,
}

impl Tapes {
    /// Damages a tape and puts it to the port.
    pub fn add(&mut self, rng: &mut Rng, source: &Source) {
        let bytes = source.damaged(rng);
        let well = match read(&bytes) {
            Err(refused) => {
                self.refused[refused[0] as usize] += 1;
                is_refused(&bytes, refused)
            }
            Ok(tape) => {
                let seen = source.compare(rng, &tape, &bytes);
                self.good.add(&seen);
                seen.wrong.is_none() && same_labels(&tape, &bytes)
            }
        };
        self.tapes += 1;
        if !well {
            self.differ += 1;
            if self.smallest.as_ref().is_none_or(|s| bytes.len() < s.len()) {
                self.smallest = Some(bytes);
            }
        }
    }

    /// Prints the numbers and the shortest tape that differs; whether none does.
    pub fn end(&self) -> bool {
        let numbers: Vec<String> = (1..9).map(|k| format!("{k}: {}", self.refused[k])).collect();
        println!(
            "runs damaged    {} tapes, {} differ; refused by {}; the others:",
            self.tapes,
            self.differ,
            numbers.join(", ")
        );
        if let Some(bytes) = &self.smallest {
            println!("tape {}\nthe reader: {:?}", hex(bytes), read(bytes));
        }
        self.good.end("still good") && self.differ == 0
    }

    pub fn good(&self) -> &Counts {
        &self.good
    }
}

/// A tape to damage, and the gates that may be found on it afterwards: code, bytes of a given matrix, gate.
pub struct Source {
    tape: Vec<u8>,
    known: Vec<(u8, Vec<u8>, Gate)>,
}

impl Source {
    pub fn of(case: &Case) -> Source {
        let named = NAMED1.iter().chain(&NAMED2).map(|row| row.1);
        let gates = named.chain([Gate::Ccx(0, 1, 2)]).chain(case.original().gates);
        let rows = gates.flat_map(|g| {
            [false, true].map(|given| {
                let bytes = record(&g, given);
                (bytes[2], bytes[3 + g.arity()..].to_vec(), g)
            })
        });
        Source { tape: case.tape(), known: rows.collect() }
    }

    /// A damaged copy of the tape.
    fn damaged(&self, rng: &mut Rng) -> Vec<u8> {
        let mut bytes = self.tape.clone();
        for _ in 0..rng.pick(&[1, 1, 1, 2]) {
            damage(rng, &mut bytes);
        }
        bytes
    }

    /// Compares a tape that is still good, with the original if it has gates for it.
    fn compare(&self, rng: &mut Rng, tape: &Tape, bytes: &[u8]) -> Seen {
        let mut list = header(rng, tape);
        let gates: Option<Vec<Vec<Gate>>> = tape.gates.iter().map(|r| self.gates(r)).collect();
        match gates {
            None => foreign(&list, bytes),
            Some(gates) => {
                list.gates = gates.concat();
                compare(&list, bytes)
            }
        }
    }

    /// The original's gates for a record, if there are any.
    fn gates(&self, r: &Record) -> Option<Vec<Gate>> {
        let row = self.known.iter().find(|row| row.0 == r.code && row.1 == r.entries)?;
        Some(match on(&row.2, &r.qubits) {
            Gate::Swap(a, b) if r.code == GIVEN4 => flips(a, b),
            g => vec![g],
        })
    }
}

/// Whether the port finds each label, and no more.
fn same_labels(tape: &Tape, bytes: &[u8]) -> bool {
    (0..=tape.labels.len()).all(|k| {
        let label = tape.labels.get(k).map(|&(start, end)| &bytes[start..end]);
        jozkeral::label(bytes, k) == label
    })
}

/// Whether every call that reads a tape refuses it so, and writes nothing.
fn is_refused(bytes: &[u8], refused: Refused) -> bool {
    let mut lent = Lent::new(2, 2, 1, 0);
    let compile = lent.compile(bytes);
    let run = lent.run(bytes);
    [&compile, &run].iter().all(|told| told.refused == refused && told.zero())
        && lent.kept(refused[0], true)
        && jozkeral::label(bytes, 0).is_none()
}

/// A list with the tape's header and without its gates; Z of a few qubits, and queries of every kind.
fn header(rng: &mut Rng, tape: &Tape) -> List {
    let &Tape { n, flags, tol, limit, .. } = tape;
    let mut queries: Vec<Query> = (0..n.min(4)).map(Query::z).collect();
    queries.extend(asks::queries(rng, n));
    List { n, flags, tol, limit, gates: vec![], queries }
}

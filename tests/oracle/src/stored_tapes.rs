//! The plain reader beside the stored answers of the other one, which is in
//! Python (tests/tape/make.py, where the format is told).

use crate::reader::{read, Refused, Tape};

/// What was compared.
#[derive(Default)]
pub struct Counts {
    pub answers: usize,
    pub walks: usize,
    pub wrong: usize,
}

/// Words of two bytes, the lowest first.
struct Words<'a>(&'a [u8]);

impl<'a> Words<'a> {
    fn bytes(&mut self, length: usize) -> Result<&'a [u8], String> {
        let (now, rest) = self.0.split_at_checked(length).ok_or("the file ends too early")?;
        self.0 = rest;
        Ok(now)
    }

    fn take(&mut self, count: usize) -> Result<Vec<usize>, String> {
        let bytes = self.bytes(2 * count)?;
        Ok(bytes.chunks(2).map(|w| usize::from(w[0]) | usize::from(w[1]) << 8).collect())
    }
}

impl Counts {
    /// Compares the answers that a file holds.
    pub fn check(&mut self, file: &[u8]) -> Result<(), String> {
        let mut words = Words(file);
        let mut tape: &[u8] = &[];
        loop {
            match words.take(1)?[0] {
                0 => return Ok(()),
                1 => {
                    let length = words.take(1)?[0];
                    tape = words.bytes(length)?;
                }
                2 => {
                    let want = words.take(8)?;
                    self.answers += 1;
                    self.wrong += usize::from(answer(read(&tape[..want[0]]), want[5]) != want[1..]);
                }
                3 => {
                    let head = words.take(2)?;
                    let want = words.take(head[1] / 2)?;
                    self.walks += 1;
                    self.wrong += usize::from(walk(read(&tape[..head[0]])) != want);
                }
                tag => return Err(format!("the tag {tag}")),
            }
        }
    }
}

/// Number, place, gates, labels, which label, its start and its end.
fn answer(got: Result<Tape, Refused>, which: usize) -> Vec<usize> {
    match got {
        Err([number, place]) => vec![number as usize, place as usize, 0, 0, which, 0, 0],
        Ok(tape) => {
            let (start, end) = tape.labels.get(which).copied().unwrap_or((0, 0));
            vec![0, 0, tape.gates.len(), tape.labels.len(), which, start, end]
        }
    }
}

/// Offset, code and three qubits of each gate.
fn walk(got: Result<Tape, Refused>) -> Vec<usize> {
    let gates = got.map_or(vec![], |tape| tape.gates);
    let five = gates.iter().map(|r| {
        let qubit = |k: usize| r.qubits.get(k).copied().unwrap_or(0);
        [r.place, r.code.into(), qubit(0), qubit(1), qubit(2)]
    });
    five.flatten().collect()
}

//! The C symbols of libengine.a (include/jozkeral.h), each on slices in place of pointers and
//! lengths. This crate's only module with unsafe code; it needs no other but `layout`, so that
//! tests/abi and bench take the two files as they are. Every call here is sound for the same reason: a
//! pointer passes with the length of its slice, the slices of one call do not overlap (Rust lends them
//! apart), and the library keeps none of them.

use crate::layout::{
    table, word, work_floats, work_marks, MAX_QUBITS, MEASURES, REPORT_WORDS, TABLE_PLACES,
};

/// Why a call was refused: the question that has no for an answer (its number, 1 to 22), and the
/// place that it names.
#[derive(Clone, Copy, Debug, PartialEq, Eq)]
pub struct Refusal {
    pub number: u64,
    pub place: u64,
}

impl Refusal {
    /// Number and place of an answer, as the library gives them: zeros where it is no refusal.
    pub fn told<T>(answer: &Result<T, Refusal>) -> [u64; 2] {
        answer.as_ref().map_or_else(|r| [r.number, r.place], |_| [0, 0])
    }
}

/// A product or a marginal: its value, and the row in which its Pfaffian's search for a pivot ended at
/// zero, if one did (the header says which row that is); the value is 0.0 then.
#[derive(Clone, Copy, Debug, PartialEq)]
pub struct Number {
    pub value: f64,
    pub row: Option<usize>,
}

impl From<f64> for Number {
    /// A number without a row.
    fn from(value: f64) -> Number {
        Number { value, row: None }
    }
}

/// The report of a tape, as the header has it.
#[derive(Clone, Debug, PartialEq)]
pub struct Report {
    pub words: [u64; REPORT_WORDS],
    pub measures: [f64; MEASURES],
    /// One after the other.
    pub tables: [u16; TABLE_PLACES],
}

impl Report {
    /// To be written over whole: no report has these numbers.
    fn blank() -> Report {
        Report {
            words: [u64::MAX; REPORT_WORDS],
            measures: [f64::NAN; MEASURES],
            tables: [u16::MAX; TABLE_PLACES],
        }
    }

    /// How many operations there are.
    pub fn operations(&self) -> usize {
        self.words[word::OPERATIONS] as usize
    }

    /// One of the tables, with its unused places.
    pub fn table(&self, which: usize) -> &[u16] {
        &self.tables[which * MAX_QUBITS..][..MAX_QUBITS]
    }

    pub fn modes(&self) -> &[u16] {
        self.table(table::MODES)
    }
}

/// The slices that `compile` and `run` work in.
pub struct Work {
    pub floats: Vec<f64>,
    pub marks: Vec<u32>,
}

impl Work {
    /// Enough for so many gates on n qubits: question 9.
    pub fn new(gates: usize, n: usize) -> Work {
        Work { floats: vec![0.0; work_floats(gates, n)], marks: vec![0; work_marks(gates, n)] }
    }
}

/// A state to ask: n qubits, the slice, the mode table.
#[derive(Clone, Copy)]
pub struct State<'a> {
    pub n: usize,
    pub slice: &'a [f64],
    pub modes: &'a [u16],
}

/// Calls a symbol: `r x` is the slice x to read, `w x` the slice x to write, `n x` a number.
macro_rules! call {
    ($symbol:ident: $($given:tt)*) => { call!(@ $symbol () $($given)*) };
    (@ $symbol:ident ($($done:expr,)*) r $x:expr, $($rest:tt)*) => {
        call!(@ $symbol ($($done,)* $x.as_ptr(), $x.len(),) $($rest)*)
    };
    (@ $symbol:ident ($($done:expr,)*) w $x:expr, $($rest:tt)*) => {
        call!(@ $symbol ($($done,)* $x.as_mut_ptr(), $x.len(),) $($rest)*)
    };
    (@ $symbol:ident ($($done:expr,)*) n $x:expr, $($rest:tt)*) => {
        call!(@ $symbol ($($done,)* $x,) $($rest)*)
    };
    // SAFETY: see the head of the module.
    (@ $symbol:ident ($($done:expr,)*)) => { unsafe { symbols::$symbol($($done),*) } };
}

/// The bytes of a label, counted from 0, if there is one.
pub fn label(tape: &[u8], which: usize) -> Option<&[u8]> {
    let mut found = [u64::MAX; 2];
    let number = call!(jozkeral_label: r tape, n which, w found,);
    assert_eq!(number, 0, "no question is asked of a label");
    let [offset, length] = found.map(|x| x as usize);
    (offset > 0).then(|| &tape[offset..][..length])
}

/// The report of a tape in any case; a refusal's is zero.
pub fn compile(tape: &[u8], work: &mut Work, ops: &mut [f64]) -> (Report, Result<(), Refusal>) {
    let (mut report, mut place) = (Report::blank(), [u64::MAX]);
    let number = call!(jozkeral_compile: r tape, w work.floats, w work.marks, w ops,
        w place, w report.words, w report.measures, w report.tables,);
    (report, told(number, place, ()))
}

/// The same of a run, whose state goes to `state`.
pub fn run(
    tape: &[u8],
    work: &mut Work,
    ops: &mut [f64],
    state: &mut [f64],
) -> (Report, Result<(), Refusal>) {
    let (mut report, mut place) = (Report::blank(), [u64::MAX]);
    let number = call!(jozkeral_run: r tape, w work.floats, w work.marks, w ops, w state,
        w place, w report.words, w report.measures, w report.tables,);
    (report, told(number, place, ()))
}

pub fn apply(n: usize, state: &mut [f64], modes: &[u16], op: &[f64]) -> Result<(), Refusal> {
    told(call!(jozkeral_apply: n n, w state, r modes, r op,), [0], ())
}

impl State<'_> {
    pub fn expectation_z_product(
        &self,
        qubits: &[usize],
        work: &mut [f64],
    ) -> Result<Number, Refusal> {
        let (mut place, mut answer, mut row) = ([u64::MAX], [f64::NAN], [u64::MAX]);
        let number = call!(jozkeral_expectation_z_product: n self.n, r self.slice, r self.modes,
            r qubits, w work, w place, w answer, w row,);
        told(number, place, numbered(answer, row))
    }

    pub fn marginal_probability(
        &self,
        qubits: &[usize],
        bits: &[u8],
        work: &mut [f64],
    ) -> Result<Number, Refusal> {
        let (mut place, mut answer, mut row) = ([u64::MAX], [f64::NAN], [u64::MAX]);
        let number = call!(jozkeral_marginal_probability: n self.n, r self.slice, r self.modes,
            r qubits, r bits, w work, w place, w answer, w row,);
        told(number, place, numbered(answer, row))
    }

    pub fn probability(&self, low: u64, high: u64, work: &mut [f64]) -> Result<f64, Refusal> {
        let mut answer = [f64::NAN];
        let number = call!(jozkeral_probability: n self.n, r self.slice, r self.modes,
            n low, n high, w work, w answer,);
        told(number, [0], answer[0])
    }

    /// Two words of `out` for each shot, the lower first.
    pub fn sample(
        &self,
        shots: usize,
        draws: &[f64],
        work: &mut [f64],
        out: &mut [u64],
    ) -> Result<(), Refusal> {
        let mut place = [u64::MAX];
        let number = call!(jozkeral_sample: n self.n, r self.slice, r self.modes, n shots,
            r draws, w work, w out, w place,);
        told(number, place, ())
    }
}

/// What a call says: its value, unless its number is that of a question.
fn told<T>(number: u64, [place]: [u64; 1], value: T) -> Result<T, Refusal> {
    match number {
        0 => Ok(value),
        number => Err(Refusal { number, place }),
    }
}

/// A number with its row, of which the library tells one more, and 0 where there is none.
fn numbered([value]: [f64; 1], [row]: [u64; 1]) -> Number {
    Number { value, row: row.checked_sub(1).map(|k| k as usize) }
}

/// The symbols as the header declares them; `L` is the length of the slice before it.
#[rustfmt::skip]
mod symbols {
    type R<T> = *const T;
    type W<T> = *mut T;
    type L = usize;

    extern "C" {
        pub fn jozkeral_label(tape: R<u8>, _: L, which: usize, found: W<u64>, _: L) -> u64;
        pub fn jozkeral_compile(
            tape: R<u8>, _: L, work: W<f64>, _: L, marks: W<u32>, _: L, ops: W<f64>, _: L,
            place: W<u64>, _: L, report: W<u64>, _: L, measures: W<f64>, _: L, tables: W<u16>, _: L,
        ) -> u64;
        pub fn jozkeral_run(
            tape: R<u8>, _: L, work: W<f64>, _: L, marks: W<u32>, _: L, ops: W<f64>, _: L,
            state: W<f64>, _: L,
            place: W<u64>, _: L, report: W<u64>, _: L, measures: W<f64>, _: L, tables: W<u16>, _: L,
        ) -> u64;
        pub fn jozkeral_apply(
            n: usize, state: W<f64>, _: L, modes: R<u16>, _: L, op: R<f64>, _: L,
        ) -> u64;
        pub fn jozkeral_expectation_z_product(
            n: usize, state: R<f64>, _: L, modes: R<u16>, _: L, qubits: R<usize>, _: L,
            work: W<f64>, _: L, place: W<u64>, _: L, answer: W<f64>, _: L, row: W<u64>, _: L,
        ) -> u64;
        pub fn jozkeral_marginal_probability(
            n: usize, state: R<f64>, _: L, modes: R<u16>, _: L, qubits: R<usize>, _: L,
            bits: R<u8>, _: L, work: W<f64>, _: L, place: W<u64>, _: L, answer: W<f64>, _: L,
            row: W<u64>, _: L,
        ) -> u64;
        pub fn jozkeral_probability(
            n: usize, state: R<f64>, _: L, modes: R<u16>, _: L, low: u64, high: u64,
            work: W<f64>, _: L, answer: W<f64>, _: L,
        ) -> u64;
        pub fn jozkeral_sample(
            n: usize, state: R<f64>, _: L, modes: R<u16>, _: L, shots: usize, draws: R<f64>, _: L,
            work: W<f64>, _: L, out: W<u64>, _: L, place: W<u64>, _: L,
        ) -> u64;
    }
}

//! One list on both sides: the report and operations of `compile`, the verdict, the report, operations and state of the run,
//! and every query.

use super::evolution::evolved;
use super::nearly::{answer_near, covariance, Nearly};
use super::ported::{Ported, Ran};
use crate::asks::equal;
use crate::layout::{covariance_bytes, question, word, OP_PLACES, RECORD_OPS, REPORT_WORDS};
use crate::lent::{Lent, Told};
use crate::slice::Slice;
use oracle::answer::{answer, answer_on, Answer};
use oracle::bits::same;
use oracle::compiled::answer::{answer as compiled, Compiled};
use oracle::list::{List, DROP};
use oracle::query::Query;
use oracle::register::Register;
use oracle::run::state;
use oracle::state_text::parts;
use oracle::tape::gates_on;
use oracle::traced::LEAST_TOL;
use original::access::state::access;

/// How a list is compared.
#[derive(Clone, Copy, PartialEq, Eq)]
pub enum How {
    /// In every bit.
    Exact,
    /// The same, but the operations of diagonal blocks are document 01's, and the state is that of the original's `apply` on
    /// them; covariance and answers of the unmodified original are the same within 1e-9.
    Angled,
    /// Not with the original: angled, and the tolerance is below 1e-12.
    SmallTol,
    /// Not with the original: angled, and a phase lies between half and twice the tolerance.
    NearPhase,
    /// Not with the original: a matrix is on the tape that none of its gates has.
    Foreign,
}

/// What was seen of a tape.
pub struct Seen {
    pub how: How,
    /// The number of the port's refusal, or 0.
    pub number: u64,
    pub ran: Option<Ran>,
    /// Answers that were compared, those with a row, and those beside the bit register.
    pub answers: usize,
    pub rows: usize,
    pub register: usize,
    /// Samples of angled lists with other bits than the unmodified original's, where a draw lies next to a probability.
    pub near_draws: usize,
    /// A list that is not compared, with another verdict than the original's.
    pub other_verdict: bool,
    /// What differs, if anything does.
    pub wrong: Option<&'static str>,
}

/// What differs is the error.
type Checked = Result<(), &'static str>;

fn expect(well: bool, what: &'static str) -> Checked {
    if well {
        Ok(())
    } else {
        Err(what)
    }
}

impl Seen {
    fn of(how: How, check: impl FnOnce(&mut Seen) -> Checked) -> Seen {
        let (number, ran, answers, rows, register, near_draws) = (0, None, 0, 0, 0, 0);
        let (other_verdict, wrong) = (false, None);
        let mut seen =
            Seen { how, number, ran, answers, rows, register, near_draws, other_verdict, wrong };
        seen.wrong = check(&mut seen).err();
        seen
    }
}

/// Compares a list with its tape, where document 01 compares the two engines; else the port with itself.
pub fn compare(list: &List, tape: &[u8]) -> Seen {
    let (want, traced) = compiled(list);
    let register = Register::of(list.n, &list.gates);
    if traced.apart {
        let how = if list.tol < LEAST_TOL { How::SmallTol } else { How::NearPhase };
        let mut seen = Seen::of(how, |seen| alone(list, tape, register, seen));
        seen.other_verdict = seen.number != state(list).err().unwrap_or(0).into();
        return seen;
    }
    let how = if traced.angled { How::Angled } else { How::Exact };
    Seen::of(how, |seen| both(list, tape, &want, register, seen))
}

/// A tape that the original has no gates for; n, flags, limit and queries are those of `list`.
pub fn foreign(list: &List, tape: &[u8]) -> Seen {
    Seen::of(How::Foreign, |seen| alone(list, tape, None, seen))
}

/// Port and original.
fn both(
    list: &List,
    tape: &[u8],
    want: &Compiled,
    register: Option<Register>,
    seen: &mut Seen,
) -> Checked {
    let ported = Ported::of(tape, list.n, want.ops.len() / OP_PLACES);
    seen.number = ported.told.refused[0];
    expect(ported.compiled.words() == want.words(), "the answer of compile")?;
    expect(ported.well, "slices after a call")?;
    let theirs = match state(list) {
        Err(number) => return refused(&ported.told, number.into()),
        Ok(state) => state,
    };
    expect(ported.told.refused == [0, 0], "the verdict")?;
    let told = ported.lent.compiled(&ported.told, list.n);
    expect(told.words() == want.words(), "report or operations of the run")?;
    let short = Ported::refuses_short(tape, list.n, want.ops.len() / OP_PLACES);
    expect(short, "the refusal of a slice that is too short")?;
    let ran = ported.ran(list.n);
    if seen.how == How::Angled {
        let by_rule = evolved(list.n, &ran.ops, ran.slice.mode_of_qubit());
        same_state(&ran.slice, access::m(&by_rule), access::d(&by_rule))?;
        answers(&ran.slice, list, |query| answer(&by_rule, list, query), register, seen)?;
        expect(covariance(&ran.slice, &theirs), "the unmodified original's covariance")?;
        for query in &list.queries {
            match answer_near(&ran.slice, list, &theirs, query) {
                Nearly::Yes => {}
                Nearly::NearDraw => seen.near_draws += 1,
                Nearly::No => return Err("the unmodified original's answer"),
            }
        }
    } else {
        let (m, d) = parts(&theirs);
        same_state(&ran.slice, &m, &d)?;
        answers(&ran.slice, list, |query| answer(&theirs, list, query), register, seen)?;
    }
    seen.ran = Some(ran);
    Ok(())
}

/// The port alone: the verdict follows from the report of `compile`, the state is what the original's `apply` makes of the port's
/// operations, and the answers are the original's on this state.
fn alone(list: &List, tape: &[u8], register: Option<Register>, seen: &mut Seen) -> Checked {
    let (gates, n) = (gates_on(tape), list.n);
    let report = Lent::new(gates, n, RECORD_OPS * (gates + n), 0).compile(tape).report;
    let ported = Ported::of(tape, n, report.operations());
    seen.number = ported.told.refused[0];
    expect(ported.compiled.refused == [0, 0], "compile")?;
    expect(ported.well, "slices after a call")?;
    let number = verdict(list, &ported.compiled.report);
    if number != 0 {
        return refused(&ported.told, number);
    }
    let told = ported.lent.compiled(&ported.told, list.n);
    expect(told.words() == ported.compiled.words(), "report or operations of the run")?;
    let ran = ported.ran(list.n);
    let state = evolved(list.n, &ran.ops, ran.slice.mode_of_qubit());
    same_state(&ran.slice, access::m(&state), access::d(&state))?;
    answers(&ran.slice, list, |query| answer_on(&state, list.n, query), register, seen)?;
    seen.ran = Some(ran);
    Ok(())
}

/// The number that questions 11 to 14 give after such a report, or 0.
fn verdict(list: &List, report: &[u64; REPORT_WORDS]) -> u64 {
    let bad = report[word::BAD];
    match () {
        () if bad > 0 && bad == report[word::NONADJACENT] => question::APART,
        () if bad > 0 => question::BAD,
        () if report[word::INTERACTIONS] > 0 && !list.has(DROP) => question::INTERACTION,
        () if covariance_bytes(list.n) > list.limit => question::LIMIT,
        () => 0,
    }
}

fn refused(told: &Told, number: u64) -> Checked {
    expect(told.refused == [number, 0] && told.zero(), "the verdict")
}

fn same_state(slice: &Slice, m: &[f64], d: &[f64]) -> Checked {
    let theirs = m.iter().chain(d);
    let well = slice.places.len() == m.len() + d.len()
        && slice.places.iter().zip(theirs).all(|(&x, &y)| same(x, y));
    expect(well, "the state")
}

/// Every query bit for bit, on register tapes also beside the register.
fn answers(
    slice: &Slice,
    list: &List,
    original: impl Fn(&Query) -> Answer,
    register: Option<Register>,
    seen: &mut Seen,
) -> Checked {
    for query in &list.queries {
        let (got, well) = slice.ask(query);
        expect(well, "work or output after a query")?;
        expect(equal(query, &original(query), &got), "an answer")?;
        seen.answers += 1;
        seen.rows += usize::from(got.row().is_some());
        if let (Some(register), Answer::Value(..) | Answer::Shots(_)) = (&register, &got) {
            // the register knows no row
            let same = equal(query, &register.answer(query), &got.rowless());
            expect(same, "the register's answer")?;
            seen.register += 1;
        }
    }
    Ok(())
}

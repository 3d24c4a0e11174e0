//! Refusals in words: what the question with a number asks, why the answer was no, and what to do
//! about it.

use crate::engine::{Compiled, Engine, Refusal};
use crate::job::Query;
use crate::layout::{question, MAX_GATES, MAX_QUBITS};
use crate::source::{Placed, Source};
use crate::tape::Record;
use crate::wording::{are, count};

/// A refusal of a list or tape, in words.
#[derive(Debug, PartialEq)]
pub struct Explained {
    pub refusal: Refusal,
    /// What it is about: a line, a record, the place where a list stops being accepted.
    pub place: Option<String>,
    pub line: Option<usize>,
    pub why: String,
    pub advice: String,
}

/// Explains the refusal of a source; `compiled` is what `compile` said of it, if it got so far.
pub fn explain(
    refusal: Refusal,
    source: &Source,
    compiled: Option<&Compiled>,
    engine: &dyn Engine,
) -> Explained {
    let number = refusal.number;
    let record = if is_about_record(number) { source.at(refusal.place) } else { None };
    let why = match compiled {
        Some(compiled) => why_not_run(number, source, compiled),
        None => why_no_tape(number, source, record),
    };
    let (place, line) = match number {
        _ if is_about_record(number) => at_record(refusal, source, record),
        question::APART..=question::INTERACTION => stops_at(source, engine),
        _ => (None, None),
    };
    Explained { refusal, place, line, why, advice: advice(number, source) }
}

/// Whether the place of a refusal is that of a record.
fn is_about_record(number: u64) -> bool {
    (question::GATES..=question::ENTRY).contains(&number)
}

fn at_record(
    refusal: Refusal,
    source: &Source,
    record: Option<&Placed>,
) -> (Option<String>, Option<usize>) {
    match record {
        Some(p) => (Some(format!("{}, `{}`", p.place(), source.text(p))), p.line),
        None => (Some(format!("byte {}", refusal.place)), None),
    }
}

/// Questions 1 to 8, and 9 and 10 for completeness.
fn why_no_tape(number: u64, source: &Source, record: Option<&Placed>) -> String {
    let n = source.header().map_or(0, |h| h.qubits);
    let qubits = match record.map(|p| &p.record) {
        Some(Record::Gate { qubits, .. }) => qubits.as_slice(),
        _ => &[],
    };
    match number {
        question::HEADER => "there is no whole header".into(),
        question::SIZE => format!("there are more than {MAX_QUBITS} qubits, or flags above 7"),
        question::TOLERANCE => "the tolerance is no number from 0 to 0.001".into(),
        question::GATES => {
            format!("there are more than {MAX_GATES} gates, and this is the first of them")
        }
        question::RECORD => "the record is cut short, or its mark, code or label is unknown".into(),
        question::QUBIT => {
            let high = qubits.iter().find(|q| **q >= n).map_or(String::new(), |q| format!(" {q}"));
            format!("qubit{high} is not below {n}")
        }
        question::REPEATED => "a gate names the same qubit twice".into(),
        question::ENTRY => {
            "an entry of the matrix is not finite, or its magnitude is above 2".into()
        }
        _ => tools_fault(number),
    }
}

/// Questions that have no for an answer only if the tool asks them wrongly.
pub fn tools_fault(number: u64) -> String {
    format!("the tool asked the engine wrongly (question {number}), which is the tool's fault")
}

/// Questions 11 to 15.
fn why_not_run(number: u64, source: &Source, compiled: &Compiled) -> String {
    let r = &compiled.report;
    let of_blocks = |k: u64| format!("{k} of {}", count(r.blocks, "block"));
    match number {
        question::APART => format!(
            "there are matchgates whose wires are no neighbours in the order: {}",
            of_blocks(r.nonadjacent)
        ),
        question::BAD => format!(
            "the circuit is not free-fermion: {} {} neither matchgate nor diagonal",
            of_blocks(r.bad - r.nonadjacent),
            are(r.bad - r.nonadjacent)
        ),
        question::INTERACTION => format!(
            "there are interactions (controlled phases), which free fermions do not have: {}",
            of_blocks(r.interactions)
        ),
        question::LIMIT => {
            let (need, limit) = source.header().map_or((0, 0), |h| (h.covariance_bytes(), h.limit));
            format!("the covariance matrix needs {need} bytes, and the limit is {limit}")
        }
        _ => tools_fault(number),
    }
}

/// What to do about a refusal.
fn advice(number: u64, source: &Source) -> String {
    if number == question::SIZE {
        return format!("set the number of qubits: --set qubits=N, at most {MAX_QUBITS}");
    }
    let header = source.header();
    let advice = match number {
        question::HEADER => {
            "is this a tape? It begins with the bytes 51 48 and has a header of 20 bytes"
        }
        question::TOLERANCE => "set the tolerance: --set tolerance=1e-10",
        question::GATES => "write gates that follow each other on the same qubits as one matrix",
        question::RECORD => "see how the tape was made; --dump shows what can be read of it",
        question::QUBIT => "correct the qubit, or the number of qubits",
        question::REPEATED => "name different qubits",
        question::ENTRY => "give a unitary matrix",
        question::APART if header.is_some_and(|h| !h.reorder) => {
            "let the engine look for an order: --set reorder=on"
        }
        question::APART => {
            "the pairs of wires with matchgates must form paths, without branches and rings: leave \
             out the bond that closes a ring, or move a wire there by swaps (with relabel on)"
        }
        question::BAD => {
            "write the gates of a matchgate next to each other on its pair of qubits, so that they \
             fuse into one block; a lone h, cnot or ccx is none. Another simulator is needed if \
             the circuit has no such form"
        }
        question::INTERACTION => {
            "leave out the controlled phases, or have them left out: --set drop=on answers for the \
             free part alone, which is not the whole circuit"
        }
        question::LIMIT => "raise the limit: --set limit=BYTES",
        _ => "please report it with the list",
    };
    advice.to_string()
}

/// Where a list stops being accepted: the gate after its longest beginning that is.
fn stops_at(source: &Source, engine: &dyn Engine) -> (Option<String>, Option<usize>) {
    let drop = source.header().is_some_and(|h| h.drop);
    let accepted = |k: &usize| match engine.compile(source.beginning(*k)) {
        Ok(c) => c.report.bad == 0 && (drop || c.report.interactions == 0),
        Err(_) => false,
    };
    let last = (0..source.gates()).rev().find(accepted);
    let Some(next) = last.and_then(|k| source.gate(k + 1)) else { return (None, None) };
    let text = source.text(next);
    (
        Some(format!("{}, `{text}`: accepted before it, and never from it on", next.place())),
        next.line,
    )
}

/// Whether a refusal is a fault of the list or the tape itself, or of the tool, and not the engine's verdict on a circuit.
pub fn is_fault(refusal: Refusal) -> bool {
    !(question::APART..=question::LIMIT).contains(&refusal.number)
}

/// Why a question about an accepted run was refused.
pub fn query_refused(query: &Query, refusal: Refusal, n: usize) -> String {
    match (refusal.number, query) {
        (question::BITS, Query::Marginal(parts)) => match parts.iter().find(|(_, bit)| *bit > 1) {
            Some((qubit, bit)) => format!("bit {bit} of qubit {qubit} is neither 0 nor 1"),
            None => tools_fault(question::BITS),
        },
        (question::LISTED, Query::Product(_) | Query::Marginal(_)) => {
            let place = usize::try_from(refusal.place).ok();
            match place.and_then(|place| query.qubits().nth(place)) {
                Some(qubit) => format!("qubit {qubit} is not below {n}"),
                None => tools_fault(question::LISTED),
            }
        }
        (number, _) => tools_fault(number),
    }
}

/// Why shots were refused.
pub fn shots_refused(refusal: Refusal) -> String {
    match refusal.number {
        question::DRAW => format!("draw {} is not from 0 and below 1", refusal.place + 1),
        number => tools_fault(number),
    }
}

#[cfg(test)]
mod tests {
    use super::*;

    #[test]
    fn a_refused_question_names_its_qubit() {
        let refusal = |number, place| Refusal { number, place };
        let product = Query::Product(vec![0, 9]);
        assert_eq!(query_refused(&product, refusal(19, 1), 4), "qubit 9 is not below 4");
        let marginal = Query::Marginal(vec![(0, 1), (7, 2)]);
        assert_eq!(query_refused(&marginal, refusal(19, 1), 4), "qubit 7 is not below 4");
        let bit = "bit 2 of qubit 7 is neither 0 nor 1";
        assert_eq!(query_refused(&marginal, refusal(18, 0), 8), bit);
        assert_eq!(shots_refused(refusal(22, 250)), "draw 251 is not from 0 and below 1");
        for odd in [refusal(19, 5), refusal(20, 0), refusal(99, 0)] {
            assert!(query_refused(&product, odd, 4).ends_with("which is the tool's fault"));
        }
    }
}

//! include/jozkeral.h and `layout` have the same numbers: every macro of the header that is a number
//! stands here beside its name in Rust, and none is left over.

use jozkeral::layout::*;
use std::collections::BTreeMap;

const HEADER: &str = include_str!("../../include/jozkeral.h");
const PREFIX: &str = "JOZKERAL_";

/// Gates and qubits at which macros of these are compared.
const SIZES: [[usize; 2]; 4] = [[0, 0], [1, 0], [5, 3], [MAX_GATES, MAX_QUBITS]];

/// The macros by name, with their values for g gates on n qubits.
fn macros(g: usize, n: usize) -> BTreeMap<&'static str, usize> {
    let lines = HEADER.lines().filter_map(|line| line.strip_prefix("#define JOZKERAL_"));
    let mut found = BTreeMap::from([("g", g), ("n", n)]);
    for line in lines.filter(|line| *line != "H") {
        let end = line.find(|c: char| !is_name(c)).expect("a value after the name");
        let (name, rest) = line.split_at(end);
        let rest = rest.split("/*").next().expect("a first part");
        let body = rest.strip_prefix("(g, n)").or(rest.strip_prefix("(n)")).unwrap_or(rest);
        let value = value(body, &found);
        assert_eq!(found.insert(name, value), None, "{name} stands there twice");
    }
    found.retain(|name, _| !["g", "n"].contains(name));
    found
}

fn is_name(c: char) -> bool {
    c.is_ascii_alphanumeric() || c == '_'
}

/// The value of a sum of products, with the names that are known. A macro that is called has the
/// header's own arguments, so that its name will do.
fn value(text: &str, known: &BTreeMap<&str, usize>) -> usize {
    let plain = text.replace("(size_t)", "").replace("PLACES(n)", "PLACES");
    let mut rest = plain.as_str();
    let sum = sum(&mut rest, known);
    assert!(rest.trim().is_empty(), "{text}: what is {rest}?");
    sum
}

fn sum(text: &mut &str, known: &BTreeMap<&str, usize>) -> usize {
    let mut sum = product(text, known);
    while let Some(rest) = text.trim_start().strip_prefix('+') {
        *text = rest;
        sum += product(text, known);
    }
    sum
}

fn product(text: &mut &str, known: &BTreeMap<&str, usize>) -> usize {
    let mut product = factor(text, known);
    while let Some(rest) = text.trim_start().strip_prefix('*') {
        *text = rest;
        product *= factor(text, known);
    }
    product
}

fn factor(text: &mut &str, known: &BTreeMap<&str, usize>) -> usize {
    *text = text.trim_start();
    if let Some(rest) = text.strip_prefix('(') {
        *text = rest;
        let sum = sum(text, known);
        *text = text.trim_start().strip_prefix(')').expect("a closing bracket");
        return sum;
    }
    let end = text.find(|c| !is_name(c)).unwrap_or(text.len());
    let (word, rest) = text.split_at(end);
    *text = rest;
    let name = word.strip_prefix(PREFIX).unwrap_or(word);
    word.parse().ok().or(known.get(name).copied()).unwrap_or_else(|| panic!("what is {word}?"))
}

/// The same in Rust.
fn ours(g: usize, n: usize) -> BTreeMap<&'static str, usize> {
    BTreeMap::from([
        ("MAX_QUBITS", MAX_QUBITS),
        ("MAX_GATES", MAX_GATES),
        ("MAX_LABEL", MAX_LABEL),
        ("MAX_SHOTS", MAX_SHOTS),
        ("HEADER_BYTES", HEADER_BYTES),
        ("RECORD_FLOATS", RECORD_FLOATS),
        ("RECORD_MARKS", RECORD_MARKS),
        ("RECORD_OPS", RECORD_OPS),
        ("WORK_PLACES", work_floats(g, n)),
        ("MARK_PLACES", work_marks(g, n)),
        ("OP_PLACES", OP_PLACES),
        ("OPS_PLACES", ops_places(g, n)),
        ("COVARIANCE_PLACES", covariance_places(n)),
        ("QUERY_PLACES", query_places(n)),
        ("STATE_PLACES", state_places(n)),
        ("REPORT_WORDS", REPORT_WORDS),
        ("MEASURES", MEASURES),
        ("TABLES", TABLES),
        ("TABLE_PLACES", TABLE_PLACES),
        ("MODES_AT", MODES_AT),
        ("INDEX_WORDS", INDEX_WORDS),
        ("KIND_ONE", kind::ONE as usize),
        ("KIND_TWO", kind::TWO as usize),
        ("KIND_INTERACTION", kind::INTERACTION as usize),
        ("WORD_N", word::N),
        ("WORD_BLOCKS", word::BLOCKS),
        ("WORD_TWO", word::TWO),
        ("WORD_GAUSSIAN", word::GAUSSIAN),
        ("WORD_BAD", word::BAD),
        ("WORD_NONADJACENT", word::NONADJACENT),
        ("WORD_INTERACTIONS", word::INTERACTIONS),
        ("WORD_SWAPS", word::SWAPS),
        ("WORD_OPERATIONS", word::OPERATIONS),
        ("WORD_CONSERVING", word::CONSERVING),
        ("WORD_EXACT", word::EXACT),
        ("WORD_FREE", word::FREE),
        ("WORD_ANGLED", word::ANGLED),
        ("WORD_ORDERING", word::ORDERING),
        ("ORDERING_IDENTITY", ordering::IDENTITY as usize),
        ("ORDERING_PATHS", ordering::PATHS as usize),
        ("ORDERING_GREEDY", ordering::GREEDY as usize),
        ("OK", 0),
        ("HEADER", question::HEADER as usize),
        ("SIZE", question::SIZE as usize),
        ("TOLERANCE", question::TOLERANCE as usize),
        ("GATES", question::GATES as usize),
        ("RECORD", question::RECORD as usize),
        ("QUBIT", question::QUBIT as usize),
        ("REPEATED", question::REPEATED as usize),
        ("ENTRY", question::ENTRY as usize),
        ("WORK", question::WORK as usize),
        ("OPERATIONS", question::OPERATIONS as usize),
        ("APART", question::APART as usize),
        ("BAD", question::BAD as usize),
        ("INTERACTION", question::INTERACTION as usize),
        ("LIMIT", question::LIMIT as usize),
        ("STATE", question::STATE as usize),
        ("BAD_STATE", question::BAD_STATE as usize),
        ("OPERATION", question::OPERATION as usize),
        ("BITS", question::BITS as usize),
        ("LISTED", question::LISTED as usize),
        ("QUERY_WORK", question::QUERY_WORK as usize),
        ("SHOTS", question::SHOTS as usize),
        ("DRAW", question::DRAW as usize),
        // no question: the wrapper's slices are long enough
        ("NO_ROOM", 99),
    ])
}

#[test]
fn the_header_has_the_same_numbers() {
    for [g, n] in SIZES {
        assert_eq!(macros(g, n), ours(g, n));
    }
}

#[test]
fn sums_of_products_are_read() {
    let known = BTreeMap::from([("A_PLACES", 5), ("n", 3)]);
    for (text, want) in [
        (" 7", 7),
        ("(2 * JOZKERAL_A_PLACES)", 10),
        ("(4 * (size_t)(n) * (size_t)(n))", 36),
        ("(JOZKERAL_A_PLACES(n) + 2 * (size_t)(n))", 11),
        ("2 * (1 + (size_t)(n)) + 1", 9),
    ] {
        assert_eq!(value(text, &known), want, "{text}");
    }
}

#[test]
fn indices_have_two_words() {
    let index = 1 << 127 | 5;
    assert_eq!(index_words(index), [5, 1 << 63]);
    assert_eq!(index_of(5, 1 << 63), index);
}

#[test]
fn given_matrices_have_an_entry_for_each_row_and_column() {
    assert_eq!([given_floats(1), given_floats(2)], [2 * 2 * 2, 2 * 4 * 4]);
}

//! The numbers that tape, slices and reports are laid out by, each with its name: the Rust side of
//! include/jozkeral.h, to which a test ties them (host/tests/header.rs). This file needs no other
//! module, so that bench, oracle and tests/abi take it as it is.

/// Most qubits and most gates of a tape.
pub const MAX_QUBITS: usize = 128;
pub const MAX_GATES: usize = 1024;
/// Most characters of a label.
pub const MAX_LABEL: usize = 40;
/// Most shots of one call of `sample`.
pub const MAX_SHOTS: usize = 65_536;

/// Bytes of a tape's header.
pub const HEADER_BYTES: usize = 20;

/// Floats of a given matrix on one or two qubits: a real and an imaginary part for each entry.
pub const fn given_floats(qubits: usize) -> usize {
    2 * (1 << qubits) * (1 << qubits)
}

/// Places of one operation: kind, mode, 16 numbers.
pub const OP_PLACES: usize = 18;

/// The kinds of operations.
pub mod kind {
    /// A map of one mode.
    pub const ONE: f64 = 1.0;
    /// A map of a mode and the next one.
    pub const TWO: f64 = 2.0;
    pub const INTERACTION: f64 = 3.0;
}

/// Places of work for each gate and each qubit, floats and marks; and operations of these at most:
/// a block may become two rotations and an interaction.
pub const RECORD_FLOATS: usize = 64;
pub const RECORD_MARKS: usize = 32;
pub const RECORD_OPS: usize = 3;

/// Floats of work for g gates on n qubits: question 9.
pub const fn work_floats(g: usize, n: usize) -> usize {
    RECORD_FLOATS * (g + n)
}

/// Marks of work: question 9.
pub const fn work_marks(g: usize, n: usize) -> usize {
    RECORD_MARKS * (g + n)
}

/// Places that suffice for the operations of any such tape; question 10 asks for `OP_PLACES` each.
pub const fn ops_places(g: usize, n: usize) -> usize {
    RECORD_OPS * OP_PLACES * (g + n)
}

/// Places of the covariance matrix, a row and a column for each of the 2n Majorana operators.
pub const fn covariance_places(n: usize) -> usize {
    4 * n * n
}

/// Its bytes: question 14.
pub const fn covariance_bytes(n: usize) -> u64 {
    (size_of::<f64>() * covariance_places(n)) as u64
}

/// Places of a state, the covariance matrix and a sign for each operator: questions 15 and 16.
pub const fn state_places(n: usize) -> usize {
    covariance_places(n) + 2 * n
}

/// Places of work that suffice for a query of n qubits: question 20.
pub const fn query_places(n: usize) -> usize {
    covariance_places(n)
}

/// Words and measures of a report.
pub const REPORT_WORDS: usize = 14;
pub const MEASURES: usize = 2;

/// The words of a report.
pub mod word {
    pub const N: usize = 0;
    pub const BLOCKS: usize = 1;
    /// Blocks on two qubits.
    pub const TWO: usize = 2;
    pub const GAUSSIAN: usize = 3;
    pub const BAD: usize = 4;
    /// Bad blocks that are matchgates on modes apart.
    pub const NONADJACENT: usize = 5;
    pub const INTERACTIONS: usize = 6;
    /// Swaps that were relabelled.
    pub const SWAPS: usize = 7;
    pub const OPERATIONS: usize = 8;
    /// This and the next three are 0 or 1: whether the number is conserved,
    pub const CONSERVING: usize = 9;
    /// no block is bad, and none an interaction,
    pub const EXACT: usize = 10;
    /// no block is bad,
    pub const FREE: usize = 11;
    /// a cut passed an off-diagonal test.
    pub const ANGLED: usize = 12;
    /// One of `ordering`.
    pub const ORDERING: usize = 13;
}

/// What the word of the ordering says.
pub mod ordering {
    pub const IDENTITY: u64 = 0;
    pub const PATHS: u64 = 1;
    pub const GREEDY: u64 = 2;
}

/// The measures of a report.
pub mod measure {
    /// Gaussian blocks in proportion to all.
    pub const FRACTION: usize = 0;
    /// The largest residual.
    pub const RESIDUAL: usize = 1;
}

/// Tables of a report, each with a place for every qubit that there may be, and places of all.
pub const TABLES: usize = 3;
pub const TABLE_PLACES: usize = TABLES * MAX_QUBITS;

/// The tables: the wire on each mode, whether a path starts there, the mode of each qubit.
pub mod table {
    pub const ORDER: usize = 0;
    pub const STARTS: usize = 1;
    pub const MODES: usize = 2;
}

/// Where the modes start among the places of all tables.
pub const MODES_AT: usize = table::MODES * MAX_QUBITS;

/// The questions, by the number of the refusal.
pub mod question {
    /// The tape: `compile` and `run`.
    pub const HEADER: u64 = 1;
    pub const SIZE: u64 = 2;
    pub const TOLERANCE: u64 = 3;
    pub const GATES: u64 = 4;
    pub const RECORD: u64 = 5;
    pub const QUBIT: u64 = 6;
    pub const REPEATED: u64 = 7;
    pub const ENTRY: u64 = 8;
    pub const WORK: u64 = 9;
    pub const OPERATIONS: u64 = 10;
    /// Only `run`.
    pub const APART: u64 = 11;
    pub const BAD: u64 = 12;
    pub const INTERACTION: u64 = 13;
    pub const LIMIT: u64 = 14;
    pub const STATE: u64 = 15;
    /// The calls on a state.
    pub const BAD_STATE: u64 = 16;
    pub const OPERATION: u64 = 17;
    pub const BITS: u64 = 18;
    pub const LISTED: u64 = 19;
    pub const QUERY_WORK: u64 = 20;
    pub const SHOTS: u64 = 21;
    pub const DRAW: u64 = 22;
}

/// Words of a basis index or a shot, the lower first; qubit q is bit q.
pub const INDEX_WORDS: usize = 2;

/// The words of a basis index.
pub const fn index_words(index: u128) -> [u64; INDEX_WORDS] {
    [index as u64, (index >> u64::BITS) as u64]
}

/// The basis index of two words.
pub const fn index_of(low: u64, high: u64) -> u128 {
    low as u128 | (high as u128) << u64::BITS
}

//! A run of the original on one list, and its text.

use crate::answer::answer;
use crate::layout::question;
use crate::list::List;
use crate::{bits, state_text};
use original::circuit::SimError;
use original::engines::gaussian::detect::{compile, GaussOp, GaussianReport, Ordering};
use original::engines::gaussian::state::GaussianState;
use std::io::{self, Write};

/// What the original makes of a list: the report and operations of `compile`,
/// and the state of `from_circuit`, or the number of its refusal.
pub struct Run {
    pub report: GaussianReport,
    pub ops: Vec<GaussOp>,
    pub state: Result<GaussianState, u8>,
}

/// Runs the unmodified original.
pub fn run(list: &List) -> Run {
    let program = compile(&list.circuit(), &list.options().detect);
    Run { report: program.report, ops: program.ops, state: state(list) }
}

/// The state of the original's `from_circuit`, or the number of its refusal.
pub fn state(list: &List) -> Result<GaussianState, u8> {
    let ran = GaussianState::from_circuit(&list.circuit(), &list.options());
    ran.map(|(state, _)| state).map_err(|e| refusal(&e))
}

/// The number of the question that an error stands for.
fn refusal(error: &SimError) -> u8 {
    let begins =
        |start: &str| matches!(error, SimError::NotSupported { what } if what.starts_with(start));
    let number = if begins("gaussian: the matchgates do not fit") {
        question::APART
    } else if begins("gaussian: the circuit is not Gaussian") {
        question::BAD
    } else if begins("gaussian: the circuit has non-zero interaction phases") {
        question::INTERACTION
    } else if matches!(error, SimError::TooLarge { .. }) {
        question::LIMIT
    } else {
        panic!("the original refuses with an unforeseen error: {error}")
    };
    number as u8
}

/// Writes the whole run: report, operations, verdict, state, answers.
pub fn print(list: &List, out: &mut impl Write) -> io::Result<()> {
    let run = run(list);
    print_report(&run.report, out)?;
    for op in &run.ops {
        print_op(op, out)?;
    }
    let state = match &run.state {
        Ok(state) => state,
        Err(number) => return writeln!(out, "verdict refused {number}"),
    };
    writeln!(out, "verdict accepted")?;
    print_state(list.n, state, out)?;
    for q in &list.queries {
        writeln!(out, "{q} ={}", answer(state, list, q))?;
    }
    Ok(())
}

fn print_report(r: &GaussianReport, out: &mut impl Write) -> io::Result<()> {
    writeln!(out, "n {}", r.n)?;
    writeln!(out, "blocks {}", r.blocks)?;
    writeln!(out, "blocks_2q {}", r.blocks_2q)?;
    writeln!(out, "gaussian {}", r.gaussian_blocks)?;
    writeln!(out, "bad {}", r.non_gaussian)?;
    writeln!(out, "nonadjacent {}", r.nonadjacent)?;
    writeln!(out, "interactions {}", r.interactions.len())?;
    writeln!(out, "swaps {}", r.swaps_relabelled)?;
    writeln!(out, "fraction {}", bits::text(r.gaussian_fraction))?;
    writeln!(out, "max_residual {}", bits::text(r.max_residual))?;
    writeln!(out, "number_conserving {}", r.number_conserving as u8)?;
    writeln!(out, "exact {}", r.exact as u8)?;
    writeln!(out, "free {}", r.free as u8)?;
    writeln!(out, "ordering {}", ordering_name(r))?;
    writeln!(out, "order{}", numbers(&r.order))?;
    writeln!(out, "path_starts{}", numbers(&path_starts(r)))?;
    writeln!(out, "modes{}", numbers(&r.mode_of_qubit))
}

/// The ordering's name, as the printing program has it too.
pub fn ordering_name(r: &GaussianReport) -> &'static str {
    match r.ordering {
        Some(Ordering::Identity) => "identity",
        Some(Ordering::Paths) => "paths",
        Some(Ordering::GreedyCover) => "greedy",
        None => unreachable!("compile always names an ordering"),
    }
}

/// A mark for each mode: 1 where a path starts, else 0.
pub fn path_starts(r: &GaussianReport) -> Vec<usize> {
    r.paths.iter().flat_map(|p| (0..p.len()).map(|k| (k == 0) as usize)).collect()
}

fn print_op(op: &GaussOp, out: &mut impl Write) -> io::Result<()> {
    match op {
        GaussOp::One { mode, q } => writeln!(out, "one {mode}{}", bits::texts(&q.concat())),
        GaussOp::Two { mode, q } => writeln!(out, "two {mode}{}", bits::texts(&q.concat())),
        GaussOp::Interaction(ip) => {
            let (a, b) = ip.modes;
            writeln!(out, "interaction {} {a} {b} {}", ip.block, bits::text(ip.g))
        }
    }
}

fn print_state(n: usize, state: &GaussianState, out: &mut impl Write) -> io::Result<()> {
    let (m, d) = state_text::parts(state);
    for row in m.chunks(2 * n.max(1)) {
        writeln!(out, "m{}", bits::texts(row))?;
    }
    writeln!(out, "d{}", bits::texts(&d))
}

fn numbers(xs: &[usize]) -> String {
    xs.iter().map(|x| format!(" {x}")).collect()
}

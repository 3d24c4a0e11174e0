//! The program `bench`: original and port in one process, the engine beside the plain one, and runs beside Pauli strings and a state vector.

use bench::{
    angles, callgrind, compare, compile, counts, growth, plain, plot, runs, strings, times,
};
use oracle::rng::Rng;
use std::process::ExitCode;

const USAGE: &str = "\
bench compare ROOTS OTHERS  compares ROOTS square roots and OTHERS calls of each other function
bench compile LISTS         compares the answers of compile to LISTS random lists of each family
bench runs LISTS            compares whole runs and queries: LISTS random lists of each family, all short lists, damaged tapes
bench plain LISTS           compares the engine with the plain one: LISTS random lists of operations of each family
bench strings LISTS         compares runs with signed Pauli strings: LISTS random lists of each family
bench angles LISTS          compares runs on given matrices of any angle with a state vector: LISTS random lists of each family
bench time                  the table of times
bench time compile          the lines for compile alone
bench time compile PART     those whose name has this part, with the heap as it is in a new process
bench time run              the lines for whole runs alone
bench time plain            those of the plain engine beside the engine
bench count                 makes the calls that callgrind counts (bench/count.sh runs it)
bench counted FILE RECORD   the table of the counts in callgrind's FILE; fails if one of the port's is more than 5 % above RECORD's
bench record FILE           the counts in callgrind's FILE as lines of a record
bench count growth          makes the calls that callgrind counts for the next (bench/growth.sh runs it)
bench growth FILE SVG       how cost grows with qubits and gates: the counts in callgrind's FILE, and times; a picture to SVG";

const SEED: u64 = 1;

fn main() -> ExitCode {
    let args: Vec<String> = std::env::args().skip(1).collect();
    let words: Vec<&str> = args.iter().map(String::as_str).collect();
    match words[..] {
        ["compare", roots, others] => match (roots.parse(), others.parse()) {
            (Ok(roots), Ok(others)) => end(compare::compare(SEED, roots, others)),
            _ => usage(),
        },
        ["compile", lists] => match lists.parse() {
            Ok(lists) => end(compile::compare(&mut Rng::new(SEED), lists)),
            _ => usage(),
        },
        ["runs", lists] => match lists.parse() {
            Ok(lists) => end(runs::compare(&mut Rng::new(SEED), lists)),
            _ => usage(),
        },
        ["plain", lists] => match lists.parse() {
            Ok(lists) => end(plain::compare(&mut Rng::new(SEED), lists)),
            _ => usage(),
        },
        ["strings", lists] => match lists.parse() {
            Ok(lists) => end(strings::compare(&mut Rng::new(SEED), lists)),
            _ => usage(),
        },
        ["angles", lists] => match lists.parse() {
            Ok(lists) => end(angles::compare(&mut Rng::new(SEED), lists)),
            _ => usage(),
        },
        ["time", ..] => time(&words[1..]),
        ["count" | "counted" | "record" | "growth", ..] => count(&words),
        _ => usage(),
    }
}

/// Prints the times, or some lines of them.
fn time(words: &[&str]) -> ExitCode {
    match words {
        [] => {
            times::small(SEED);
            times::compiles(SEED);
            times::runs(SEED);
            times::plain(SEED);
        }
        ["compile"] => times::compiles(SEED),
        ["compile", part] => times::cold(SEED, part),
        ["run"] => times::runs(SEED),
        ["plain"] => times::plain(SEED),
        _ => return usage(),
    }
    ExitCode::SUCCESS
}

/// Makes the calls for callgrind, or reads what it wrote.
fn count(words: &[&str]) -> ExitCode {
    let text = |file: &str| std::fs::read_to_string(file).expect("a file of counts");
    let rows = |file: &str| counts::all(callgrind::read(&text(file)));
    match words {
        ["count"] if callgrind::present() => counts::pieces(SEED),
        ["count", "growth"] if callgrind::present() => growth::pieces(SEED, &mut callgrind::count),
        ["counted", file, record] => {
            return end(counts::gate(&rows(file), &counts::recorded(&text(record))))
        }
        ["growth", file, svg] => {
            let curves = growth::curves(SEED, &callgrind::read(&text(file)));
            std::fs::write(svg, plot::svg(&curves)).expect("a place for the picture");
        }
        ["record", file] => print!("{}", counts::lines(&rows(file))),
        _ => return usage(),
    }
    ExitCode::SUCCESS
}

fn end(well: bool) -> ExitCode {
    if well {
        ExitCode::SUCCESS
    } else {
        ExitCode::FAILURE
    }
}

fn usage() -> ExitCode {
    eprintln!("{USAGE}");
    ExitCode::from(2)
}

//! The program `oracle`; without arguments it lists its commands.

use oracle::families::FAMILIES;
use oracle::list::{parse_many, List, SEPARATOR};
use oracle::rng::Rng;
use oracle::{
    check, classify, compiled, exact, families, fused, leaves, plain, printed, run, runs, selftest,
    state_lists, stored_tapes, strings, tape,
};
use std::io::{self, BufWriter, Read, Write};
use std::process::ExitCode;

const USAGE: &str = "\
oracle run FILE                  the original's answers to the gate lists of FILE (- is standard input)
oracle tape FILE OUT             the tape of FILE's gate list to OUT (several lists: OUT.0, OUT.1, ..)
oracle random SEED COUNT FAMILY  random gate lists to standard output
oracle families                  the names of the families
oracle vector FILE               the answers beside those of a state vector
oracle selftest SEED COUNT       the module trees beside each other, the plain engine beside the original, strings beside matrices and
                                 a state vector: COUNT lists a family
oracle exact SEED COUNT          the engine's formula beside quantum mechanics in exact numbers: COUNT lists of gates in each of four kinds of numbers
oracle reader FILE ..            the plain reader of tapes beside the stored answers of the one in Python
oracle leaves [products]         the stored list of leaf results, or its second part, in binary
oracle fuse LIST                 the stored list LIST of tapes and their items, in binary: cuts, mixed, angled or ties
oracle compile LIST              the stored list LIST of tapes and the answers of compile, in binary: edges, graphs,
                                 exact or angled
oracle classify LIST             the stored list LIST of blocks and their classes, in binary: gates, given or phases
oracle runs LIST [SEED]          the stored list LIST of whole runs and queries, in binary: edges, register, signs or mixed;
                                 with a seed that is not 0 one of other random tapes
oracle state LIST                the stored list LIST of states and calls on them, in binary: signs, applies, queries,
                                 edges, samples, stops or plain
oracle print TAPE                the stored tape TAPE of the printing programs: cut, long, most or over
oracle printed                   what must be printed of these tapes";

/// Calls whose rows are compared, for each list of a family.
const ROWS: usize = 100;
/// And lists of gates whose strings are.
const STRINGS: usize = 10;

fn main() -> ExitCode {
    let args: Vec<String> = std::env::args().skip(1).collect();
    let words: Vec<&str> = args.iter().map(String::as_str).collect();
    match command(&words) {
        Ok(true) => ExitCode::SUCCESS,
        Ok(false) => ExitCode::FAILURE,
        Err(message) => {
            eprintln!("{message}");
            ExitCode::from(2)
        }
    }
}

/// Does what the words say; whether all was well.
fn command(words: &[&str]) -> Result<bool, String> {
    match words {
        ["run", file] => run_all(file).map(|()| true),
        ["tape", file, out] => write_tapes(file, out).map(|()| true),
        ["random", seed, count, family] => {
            random(number(seed)?, number(count)?, family).map(|()| true)
        }
        ["families"] => Ok(FAMILIES.iter().all(|row| writeln!(io::stdout(), "{}", row.0).is_ok())),
        ["vector", file] => vector(file),
        ["selftest", seed, count] => selftest(number(seed)?, number(count)?),
        ["exact", seed, count] => Ok(exact::compare(number(seed)?, number(count)?)),
        ["reader", files @ ..] => reader(files),
        ["leaves"] => write_out(&leaves::leaves()).map(|()| true),
        ["leaves", "products"] => write_out(&leaves::more_products()).map(|()| true),
        ["fuse", list] => write_out(&fused::list(list)?).map(|()| true),
        ["runs", list] => write_out(&runs::list(list, 0)?).map(|()| true),
        ["runs", list, seed] => write_out(&runs::list(list, number(seed)?)?).map(|()| true),
        ["compile", list] => write_out(&compiled::list(list)?).map(|()| true),
        ["state", list] => write_out(&state_lists::list(list)?).map(|()| true),
        ["classify", list] => write_out(&classify::list(list)?).map(|()| true),
        ["print", tape] => write_out(&printed::tape(tape)?).map(|()| true),
        ["printed"] => write_out(printed::text().as_bytes()).map(|()| true),
        _ => Err(USAGE.to_string()),
    }
}

fn run_all(file: &str) -> Result<(), String> {
    let mut out = BufWriter::new(io::stdout().lock());
    for (k, list) in read_lists(file)?.iter().enumerate() {
        separate(k, &mut out)?;
        run::print(list, &mut out).map_err(|e| e.to_string())?;
    }
    out.flush().map_err(|e| e.to_string())
}

fn write_tapes(file: &str, out: &str) -> Result<(), String> {
    let lists = read_lists(file)?;
    for (k, list) in lists.iter().enumerate() {
        let name = if lists.len() == 1 { out.to_string() } else { format!("{out}.{k}") };
        std::fs::write(&name, tape::tape(list)?).map_err(|e| format!("{name}: {e}"))?;
    }
    Ok(())
}

fn random(seed: u64, count: usize, family: &str) -> Result<(), String> {
    let family = families::find(family)?;
    let mut rng = Rng::new(seed);
    let mut out = BufWriter::new(io::stdout().lock());
    for k in 0..count {
        separate(k, &mut out)?;
        write!(out, "{}", family(&mut rng.split())).map_err(|e| e.to_string())?;
    }
    out.flush().map_err(|e| e.to_string())
}

fn vector(file: &str) -> Result<bool, String> {
    let mut counts = check::Counts::default();
    for list in &read_lists(file)? {
        counts.check(list);
    }
    print!("{counts}");
    Ok(counts.wrong == 0)
}

fn selftest(seed: u64, count: usize) -> Result<bool, String> {
    let out = selftest::selftest(seed, count);
    println!("module trees: {} compared, {} differ", out.compared, out.trees_differ);
    println!("list texts: {} read back, {} differ", out.compared, out.texts_differ);
    let [calls, stops, rows_differ] = selftest::rows(seed, ROWS * count);
    println!("rows: {calls} calls compared, {stops} of them stop, {rows_differ} differ");
    let plain = plain::beside::beside(seed, count);
    println!("plain engine: {plain}");
    let strings = strings::checks::checks(seed, STRINGS * count);
    println!("strings: {strings}");
    let tape = selftest::tape_is_right();
    println!("known tape: {}", if tape { "right" } else { "wrong" });
    let differ = out.trees_differ + out.texts_differ + rows_differ + plain.differ;
    let strings = strings.well(STRINGS * count);
    Ok(differ == 0 && stops > 0 && 2 * plain.turning > plain.lists && strings && tape)
}

fn reader(files: &[&str]) -> Result<bool, String> {
    let mut counts = stored_tapes::Counts::default();
    for file in files {
        let bytes = std::fs::read(file).map_err(|e| format!("{file}: {e}"))?;
        counts.check(&bytes).map_err(|e| format!("{file}: {e}"))?;
    }
    println!(
        "stored tapes: {} answers, {} lists of gates, {} differ",
        counts.answers, counts.walks, counts.wrong
    );
    Ok(counts.wrong == 0)
}

fn read_lists(file: &str) -> Result<Vec<List>, String> {
    let mut text = String::new();
    let read = match file {
        "-" => io::stdin().read_to_string(&mut text).map(|_| ()),
        _ => std::fs::read_to_string(file).map(|t| text = t),
    };
    read.map_err(|e| format!("{file}: {e}"))?;
    parse_many(&text).map_err(|e| format!("{file}, {e}"))
}

fn separate(k: usize, out: &mut impl Write) -> Result<(), String> {
    match k {
        0 => Ok(()),
        _ => writeln!(out, "{SEPARATOR}").map_err(|e| e.to_string()),
    }
}

fn write_out(bytes: &[u8]) -> Result<(), String> {
    io::stdout().write_all(bytes).map_err(|e| e.to_string())
}

fn number<T: std::str::FromStr>(s: &str) -> Result<T, String> {
    s.parse().map_err(|_| format!("`{s}` is not a number\n{USAGE}"))
}

//! The command line.

use crate::job::Query;
use crate::layout::MAX_SHOTS;
use crate::list::{self, Setting};
use std::ffi::{OsStr, OsString};
use std::os::unix::ffi::{OsStrExt, OsStringExt};

/// What the tool is for, and how it is called.
pub fn help() -> String {
    format!("{USAGE}\n{}", list::HELP)
}

/// The name of the tool and its version.
pub fn version() -> String {
    format!("jozkeral {}\n", env!("CARGO_PKG_VERSION"))
}

const USAGE: &str = "\
jozkeral: simulates free-fermion (matchgate) circuits by a proved engine

  jozkeral [OPTIONS] FILE

FILE is a gate list (text, see below) or a tape (bytes that begin 51 48), of at
most 4 MiB; - is standard input. The tool prints what the engine found, or why
it refused and what to do, and the parity Z of every qubit.

Ask for more (each but --shots as often as you like):
  --product 0,3,7      the expectation of Z0 Z3 Z7
  --marginal 0=1,4=0   the probability that qubit 0 is 1 and qubit 4 is 0
  --index 0110         the probability of a basis index, a bit for each qubit,
                       qubit 0 first
  --shots 10           ten shots of all qubits, qubit 0 first; at most 65536
  --seed 7             the seed of their draws (splitmix64; 0 if not given)
  --draws FILE         their draws from a file: n numbers for each shot, at
                       least 0 and below 1; without --shots all that are there

Write more:
  --json               everything as JSON, numbers in full (see below)
  --svg FILE           a sheet to print: parities, the order, the blocks
  --tape FILE          the tape of the list
  --dump               only the tape as a gate list, which reads back to it
  --digits 9           digits after the point, 1 to 17

  --set NAME=VALUE     a setting (see below) in place of the list's own
  --help, --version    this text; the tool's version
  --                   what follows is a file, whatever it begins with

Numbers: if every gate is one of I X Y Z S Sdg Swap ISwap ISwapdg, it is proved
that every answer is exactly that of a bit register, and the tool says `exact`.
All other numbers are rounded; of these a 1, -1 or 0 without digits after the
point is a float with that value. A given matrix that is not unitary within
1e-9 is warned of, and run.

A parity, product or marginal that is zero says where it comes from: `found`,
with the row in which the calculation met nothing to divide by (two rows belong
to a listed qubit, in the order of the modes, but rows are exchanged on the
way, so that a row names no qubit); `worked out`, where the arithmetic came to
0.0; or that the list of a marginal contradicts itself. What comes before
either may have been rounded.

Exit status: 0 answered; 1 the engine refused the circuit or a question about
it; 2 the command line, the list or a file is at fault, or what was to be
printed could not be (without a word if a pipe's reader has left).

JSON: one object on standard output, whatever the exit status; a number that is
not finite is null.
  error      null, or with status 2 the message and its line (null if it has
             none); often the only member
  warnings   texts, each with its place
  exact      whether every answer is proved to be the bit register's
  refusal    null, or number, place, line, where, why and advice
  report     what the engine found; its number_conserving is null where no
             block was tested for it, and number_tested says how many were
             (null with bad blocks)
  parities, queries, shots
             the answers. A query has a value, or the number of its refusal
             with place and reason. A parity, a product and a marginal have
             zero, which is `found`, `worked out` or `contradiction`, and null
             if the number is not 0, and row, which is null unless it was
             found. Shots come as they are made; if a draw is refused they end
             there, and shots_refused is not null

Examples:
  jozkeral examples/chain60.txt
  jozkeral examples/chain60.txt --product 27,28 --shots 5 --seed 7
  jozkeral examples/chain60.txt --svg sheet.svg --tape chain60.tape
  jozkeral chain60.tape --dump
  jozkeral examples/refused.txt --set drop=on
";

/// What the command line asks.
#[derive(Debug, PartialEq)]
pub enum Command {
    Help,
    Version,
    Job(Box<Options>),
}

/// What a job is.
#[derive(Debug, PartialEq)]
pub struct Options {
    pub file: OsString,
    pub queries: Vec<Query>,
    pub shots: Option<usize>,
    pub seed: Option<u64>,
    /// A file of draws.
    pub draws: Option<OsString>,
    pub json: bool,
    pub dump: bool,
    pub svg: Option<OsString>,
    pub tape: Option<OsString>,
    pub digits: usize,
    pub settings: Vec<Setting>,
}

impl Options {
    fn usual() -> Options {
        Options {
            file: OsString::new(),
            queries: vec![],
            shots: None,
            seed: None,
            draws: None,
            json: false,
            dump: false,
            svg: None,
            tape: None,
            digits: 9,
            settings: vec![],
        }
    }
}

/// The options that stand alone; those with a value that may be given again; those with a value that may not.
const ALONE: [&str; 6] = ["--help", "-h", "--version", "-V", "--json", "--dump"];
const REPEATED: [&str; 4] = ["--product", "--marginal", "--index", "--set"];
const ONCE: [&str; 6] = ["--shots", "--seed", "--draws", "--svg", "--tape", "--digits"];

/// Whether the command line, which may be faulty, asks for JSON.
pub fn wants_json(words: &[OsString]) -> bool {
    words.iter().take_while(|w| *w != "--").any(|w| w == "--json")
}

/// Reads the command line.
pub fn read(words: impl IntoIterator<Item = OsString>) -> Result<Command, String> {
    let mut options = Options::usual();
    let mut words = words.into_iter();
    let (mut seen, mut only_files) = (vec![], false);
    while let Some(word) = words.next() {
        if only_files || word == "-" || !word.as_bytes().starts_with(b"-") {
            set_file(&mut options, word)?;
            continue;
        }
        let (option, given) = split(&word);
        match (option.as_str(), given) {
            ("--", None) => only_files = true,
            (alone, None) if ALONE.contains(&alone) => match alone {
                "--json" => options.json = true,
                "--dump" => options.dump = true,
                "--version" | "-V" => return Ok(Command::Version),
                _ => return Ok(Command::Help),
            },
            (alone, Some(_)) if ALONE.contains(&alone) => {
                return Err(format!("{alone} takes no value"));
            }
            (valued, given) if REPEATED.contains(&valued) || ONCE.contains(&valued) => {
                if ONCE.contains(&valued) && seen.contains(&option) {
                    return Err(format!("{valued} is given twice"));
                }
                // A word that begins so is the next option: this one was left without its value.
                let next = || words.next().filter(|w| !w.as_bytes().starts_with(b"--"));
                let value = given.or_else(next).ok_or_else(|| format!("{valued} needs a value"))?;
                take(&mut options, valued, &value)?;
                seen.push(option);
            }
            _ => return Err(format!("`{option}` is no option; --help lists them")),
        }
    }
    fits(&options).map(|()| Command::Job(Box::new(options)))
}

/// An option and what follows its equals sign.
fn split(word: &OsStr) -> (String, Option<OsString>) {
    let mut parts = word.as_bytes().splitn(2, |b| *b == b'=');
    let name = String::from_utf8_lossy(parts.next().unwrap_or(b"")).into_owned();
    (name, parts.next().map(|value| OsString::from_vec(value.to_vec())))
}

fn set_file(options: &mut Options, word: OsString) -> Result<(), String> {
    if word.is_empty() {
        return Err("an empty word is no file".into());
    }
    if !options.file.is_empty() {
        return Err(format!("one file at a time: `{}` is a second one", word.to_string_lossy()));
    }
    options.file = word;
    Ok(())
}

/// Whether the options go together.
fn fits(o: &Options) -> Result<(), String> {
    let asks = o.json || o.svg.is_some() || o.shots.is_some() || o.draws.is_some();
    let fault = match () {
        _ if o.file.is_empty() => "name a gate list or a tape; --help tells more",
        _ if o.seed.is_some() && (o.shots.is_none() || o.draws.is_some()) => {
            "--seed goes with --shots, and not with --draws"
        }
        _ if o.dump && (asks || !o.queries.is_empty()) => "--dump goes with --tape and --set only",
        _ if o.file == "-" && o.draws.as_deref() == Some(OsStr::new("-")) => {
            "standard input cannot be both the list and the draws"
        }
        _ => return Ok(()),
    };
    Err(fault.into())
}

/// What to give for a seed or a number of shots.
const WHOLE: &str = "give a whole number, below 2^64";

/// Takes an option that has a value.
fn take(options: &mut Options, option: &str, value: &OsStr) -> Result<(), String> {
    let shown = value.to_string_lossy();
    let fault = |wanted: &str| format!("{option} {shown}: {wanted}");
    match option {
        "--draws" => options.draws = Some(value.into()),
        "--svg" | "--tape" if value == "-" || value.is_empty() => {
            return Err(fault("name a file to write"));
        }
        "--svg" => options.svg = Some(value.into()),
        "--tape" => options.tape = Some(value.into()),
        "--seed" => options.seed = Some(number(&shown).ok_or_else(|| fault(WHOLE))?),
        "--shots" => {
            let shots = number(&shown).ok_or_else(|| fault(WHOLE))?;
            let most = format!("at most {MAX_SHOTS} at a time; another seed gives others");
            let few = usize::try_from(shots).ok().filter(|s| *s <= MAX_SHOTS);
            options.shots = Some(few.ok_or_else(|| fault(&most))?);
        }
        "--digits" => {
            let digits = number(&shown).and_then(|d| usize::try_from(d).ok());
            let digits = digits.filter(|d| (1..=17).contains(d));
            options.digits = digits.ok_or_else(|| fault("give a number from 1 to 17"))?;
        }
        "--set" => {
            let (name, value) = shown.split_once('=').ok_or_else(|| fault("give NAME=VALUE"))?;
            if options.settings.iter().any(|s| s.0.eq_ignore_ascii_case(name)) {
                return Err(fault("this setting is given twice"));
            }
            options.settings.push((name.to_string(), value.to_string()));
        }
        _ => options.queries.push(query(option, &shown).map_err(fault)?),
    }
    Ok(())
}

/// A question about the state; else what to give.
fn query(option: &str, value: &str) -> Result<Query, &'static str> {
    match option {
        "--product" => product(value).map(Query::Product).ok_or("give qubits, as in 0,3,7"),
        "--marginal" => {
            marginal(value).map(Query::Marginal).ok_or("give qubits and bits, as in 0=1,4=0")
        }
        _ => index(value).map(Query::Index).ok_or("give a 0 or 1 for each qubit"),
    }
}

/// A number without a sign.
fn number(word: &str) -> Option<u64> {
    word.bytes().all(|b| b.is_ascii_digit()).then(|| word.parse().ok())?
}

fn qubit(word: &str) -> Option<usize> {
    number(word.trim())?.try_into().ok()
}

fn product(value: &str) -> Option<Vec<usize>> {
    value.split(',').map(qubit).collect()
}

fn marginal(value: &str) -> Option<Vec<(usize, u8)>> {
    let part = |w: &str| -> Option<(usize, u8)> {
        let (q, bit) = w.split_once('=')?;
        Some((qubit(q)?, number(bit.trim())?.try_into().ok()?))
    };
    value.split(',').map(part).collect()
}

fn index(value: &str) -> Option<Vec<u8>> {
    value.bytes().map(|b| matches!(b, b'0' | b'1').then(|| b - b'0')).collect()
}

#[cfg(test)]
mod tests {
    use super::*;

    fn parsed(line: &str) -> Result<Command, String> {
        read(line.split_whitespace().map(OsString::from))
    }

    fn job(line: &str) -> Options {
        match parsed(line) {
            Ok(Command::Job(options)) => *options,
            other => panic!("{line}: {other:?}"),
        }
    }

    #[test]
    fn a_whole_command_line() {
        let o = job("a.txt --product 0,3 --marginal=0=1,4=0 --index 01 --shots 3 --seed 7 --json \
                     --set drop=on --digits 12");
        let marginal = Query::Marginal(vec![(0, 1), (4, 0)]);
        assert_eq!(o.queries, [Query::Product(vec![0, 3]), marginal, Query::Index(vec![0, 1])]);
        assert_eq!((o.shots, o.seed, o.digits, o.json), (Some(3), Some(7), 12, true));
        assert_eq!(o.settings, [("drop".to_string(), "on".to_string())]);
        assert_eq!(parsed("a.txt --help"), Ok(Command::Help));
        assert_eq!(parsed("--version"), Ok(Command::Version));
    }

    #[test]
    fn files_of_any_name() {
        assert_eq!(job("-- --json").file, "--json");
        assert!(!job("-- --json").json);
        assert_eq!(job("a --svg=--json").svg, Some("--json".into()));
        let odd = OsString::from_vec(b"\xFF.txt".to_vec());
        let tape = OsString::from_vec(b"--tape=\xFE".to_vec());
        let Ok(Command::Job(o)) = read([odd.clone(), tape]) else { panic!() };
        assert_eq!((o.file, o.tape), (odd, Some(OsString::from_vec(vec![0xFE]))));
    }

    #[test]
    fn json_is_wanted_of_a_faulty_line_too() {
        let words = |line: &str| line.split(' ').map(OsString::from).collect::<Vec<_>>();
        assert!(wants_json(&words("--frob --json")));
        assert!(!wants_json(&words("a -- --json")));
    }

    #[test]
    fn shots_have_a_limit() {
        assert!(USAGE.contains(&format!("; at most {MAX_SHOTS}\n")));
        assert_eq!(job("a --shots 65536").shots, Some(65536));
        let over = "--shots 65537: at most 65536 at a time; another seed gives others";
        assert_eq!(parsed("a --shots 65537"), Err(over.into()));
    }

    #[test]
    fn faults() {
        for (line, want) in [
            ("", "name a gate list or a tape; --help tells more"),
            ("a b", "one file at a time: `b` is a second one"),
            ("a --frob 1", "`--frob` is no option; --help lists them"),
            ("a --frob", "`--frob` is no option; --help lists them"),
            ("a --frob=1", "`--frob` is no option; --help lists them"),
            ("a -x", "`-x` is no option; --help lists them"),
            ("a --json=yes", "--json takes no value"),
            ("a --shots", "--shots needs a value"),
            ("a --svg --json", "--svg needs a value"),
            ("a --shots x", "--shots x: give a whole number, below 2^64"),
            ("a --shots -1", "--shots -1: give a whole number, below 2^64"),
            ("a --shots 1 --shots 2", "--shots is given twice"),
            ("a --digits 0", "--digits 0: give a number from 1 to 17"),
            ("a --product 0,x", "--product 0,x: give qubits, as in 0,3,7"),
            ("a --product=", "--product : give qubits, as in 0,3,7"),
            ("a --product +1", "--product +1: give qubits, as in 0,3,7"),
            ("a --marginal 0", "--marginal 0: give qubits and bits, as in 0=1,4=0"),
            ("a --index 012", "--index 012: give a 0 or 1 for each qubit"),
            ("a --set drop", "--set drop: give NAME=VALUE"),
            ("a --set drop=on --set DROP=off", "--set DROP=off: this setting is given twice"),
            ("a --seed 1", "--seed goes with --shots, and not with --draws"),
            ("a --tape -", "--tape -: name a file to write"),
            ("a --dump --product 0", "--dump goes with --tape and --set only"),
            ("- --draws -", "standard input cannot be both the list and the draws"),
        ] {
            assert_eq!(parsed(line), Err(want.into()), "{line}");
        }
        let empty = read(["a", "--product", ""].map(OsString::from));
        assert_eq!(empty, Err("--product : give qubits, as in 0,3,7".into()));
        assert_eq!(read([OsString::new()]), Err("an empty word is no file".into()));
    }
}

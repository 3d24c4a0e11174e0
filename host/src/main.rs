//! The tool `jozkeral`: one job from the command line. See `options` for what it takes.

mod stdout;

use jozkeral::draws::{self, Splitmix64};
use jozkeral::engine::Library;
use jozkeral::fault::Fault;
use jozkeral::job::{self, Outcome, Portion, Query, Shots};
use jozkeral::layout::MAX_SHOTS;
use jozkeral::options::{self, Command, Options};
use jozkeral::report::{self, Context};
use jozkeral::source::{Source, MOST_BYTES};
use jozkeral::wording::shown;
use jozkeral::{json, refusals, svg};
use std::ffi::{OsStr, OsString};
use std::fs::File;
use std::io::{self, BufRead, BufReader, IsTerminal, Read, Write};
use std::process::ExitCode;
use std::time::Instant;

/// Exit status of a job of which the engine refused something, and of one that is ill-formed or could not be printed.
const REFUSED: u8 = 1;
const FAULT: u8 = 2;

/// Why the tool stops.
enum Stop {
    /// What to say, and the line of the list that it is about.
    Said(String, Option<usize>),
    /// Standard output takes no more.
    Print(io::Error),
}

impl Stop {
    /// A fault of a file.
    fn at(name: &str, fault: Fault) -> Stop {
        Stop::Said(format!("{name}: {fault}"), Some(fault.line).filter(|line| *line > 0))
    }
}

impl From<String> for Stop {
    fn from(message: String) -> Stop {
        Stop::Said(message, None)
    }
}

impl From<io::Error> for Stop {
    fn from(error: io::Error) -> Stop {
        Stop::Print(error)
    }
}

fn main() -> ExitCode {
    let words: Vec<OsString> = std::env::args_os().skip(1).collect();
    let json = options::wants_json(&words);
    let status = stdout::open().and_then(|mut out| match work(words, &mut out) {
        Ok(status) => Ok(status),
        Err(Stop::Print(e)) => Err(e),
        Err(Stop::Said(message, line)) => {
            let message = shown(&message);
            say(&message);
            if json {
                writeln!(out, "{}", json::fault(&message, line))?;
            }
            Ok(FAULT)
        }
    });
    ExitCode::from(status.unwrap_or_else(|e| {
        // The reader of a pipe leaves when it has what it wanted.
        if e.kind() != io::ErrorKind::BrokenPipe {
            say(&format!("cannot print: {e}"));
        }
        FAULT
    }))
}

/// A line among the errors. If nobody can read it, there is nobody to tell.
fn say(message: &str) {
    let _ = writeln!(io::stderr(), "jozkeral: {}", shown(message));
}

/// Does what the command line asks; the answer is the exit status.
fn work(words: Vec<OsString>, out: &mut File) -> Result<u8, Stop> {
    let options = match options::read(words)? {
        Command::Help => return Ok(out.write_all(options::help().as_bytes()).map(|()| 0)?),
        Command::Version => return Ok(out.write_all(options::version().as_bytes()).map(|()| 0)?),
        Command::Job(options) => options,
    };
    let name = shown_name(&options.file);
    let source = Source::read(&name, contents(&options.file)?, &options.settings)
        .map_err(|fault| Stop::at(&name, fault))?;
    if let Some(file) = &options.tape {
        write(file, &source.tape)?;
    }
    if options.dump {
        return dump(&source, out);
    }
    answer(&options, &source, out)
}

/// Runs the source and answers what is asked of it.
fn answer(options: &Options, source: &Source, out: &mut File) -> Result<u8, Stop> {
    check_indices(options, source)?;
    let (shots, drawn) = draws(options, source)?;
    let outcome = job::run(source, &options.queries, &Library)?;
    let from = match &options.draws {
        Some(file) => shown_name(file),
        None => format!("seed {} (splitmix64)", options.seed.unwrap_or(0)),
    };
    let context =
        Context { source, queries: &options.queries, shots, draws: &from, digits: options.digits };
    if let Some(file) = &options.svg {
        write(file, svg::sheet(&context, &outcome).as_bytes())?;
    }
    warn(source, &outcome);
    let all = match &outcome.answers {
        Err(_) => show(options.json, &context, &outcome, &mut std::iter::empty(), out)?,
        Ok(answers) => {
            let wanted = shots.unwrap_or(0);
            let shots = Shots::new(&Library, &answers.state, wanted, drawn);
            let mut tell = progress(wanted);
            show(options.json, &context, &outcome, &mut shots.inspect(|p| tell(p)), out)?
        }
    };
    Ok(match &outcome.answers {
        Err(refused) if refusals::is_fault(refused.refusal) => FAULT,
        _ if all && !outcome.refused() => 0,
        _ => REFUSED,
    })
}

/// Prints the outcome; the answer is false if shots were refused. A refusal of the tape itself is one line among the errors.
fn show(
    json: bool,
    context: &Context,
    outcome: &Outcome,
    portions: &mut dyn Iterator<Item = Portion>,
    out: &mut File,
) -> Result<bool, Stop> {
    if let (Err(refused), None) = (&outcome.answers, &outcome.compiled) {
        say(&format!("{}: {}", context.source.name, report::refused_line(refused)));
    }
    if json {
        return Ok(json::write(out, context, outcome, portions)?);
    }
    if outcome.compiled.is_some() {
        out.write_all(report::words(context, outcome).as_bytes())?;
    }
    match &outcome.answers {
        Ok(answers) => Ok(report::shots(out, context, answers.parities.len(), portions)?),
        Err(_) => Ok(true),
    }
}

/// Says the warnings, unless the tape itself was refused: the first few, for each stands for a line of the list.
fn warn(source: &Source, outcome: &Outcome) {
    const SAID: usize = 8;
    if outcome.compiled.is_none() {
        return;
    }
    let warnings = report::warnings(source);
    for warning in warnings.iter().take(SAID) {
        say(&format!("{}: warning: {warning}", source.name));
    }
    if warnings.len() > SAID {
        say(&format!("{}: more warnings: {}", source.name, warnings.len() - SAID));
    }
}

/// Prints the tape as text; what cannot be read of it is a fault.
fn dump(source: &Source, out: &mut File) -> Result<u8, Stop> {
    match source.dump() {
        Ok(text) => Ok(out.write_all(text.as_bytes()).map(|()| 0)?),
        Err(text) => {
            writeln!(out, "{text}")?;
            Err(format!("{}: not all of it is a tape", source.name).into())
        }
    }
}

/// Whether every basis index has a bit for each qubit. A tape without a header is the engine's to refuse.
fn check_indices(options: &Options, source: &Source) -> Result<(), String> {
    let Some(n) = source.header().map(|h| usize::from(h.qubits)) else { return Ok(()) };
    for query in &options.queries {
        if let Query::Index(bits) = query {
            if bits.len() != n {
                return Err(format!("--index has {} bits, and there are {n} qubits", bits.len()));
            }
        }
    }
    Ok(())
}

type Draws = Box<dyn Iterator<Item = f64>>;

/// How many shots are wanted, and their draws.
fn draws(options: &Options, source: &Source) -> Result<(Option<usize>, Draws), Stop> {
    let Some(file) = &options.draws else {
        return Ok((options.shots, Box::new(Splitmix64::new(options.seed.unwrap_or(0)))));
    };
    let n = source.header().map_or(0, |h| usize::from(h.qubits));
    let name = shown_name(file);
    // One more than can be used tells that there are too many.
    let most = options.shots.map_or(n.max(1) * MAX_SHOTS + 1, |shots| n * shots);
    let draws = draws::read(opened(file)?, most).map_err(|fault| Stop::at(&name, fault))?;
    let shots = options.shots.unwrap_or(draws.len() / n.max(1));
    let have = draws.len();
    if options.shots.is_none() && have == most {
        return Err(format!("{name}: draws for over {MAX_SHOTS} shots; give --shots").into());
    }
    if have < n * shots {
        return Err(format!("{name}: {have} draws, and {shots} shots need {}", n * shots).into());
    }
    Ok((Some(shots), Box::new(draws.into_iter())))
}

/// Tells of long sampling that is not seen on the terminal: once a second, on one line of it.
fn progress(wanted: usize) -> impl FnMut(&Portion) {
    let seen = io::stdout().is_terminal() || !io::stderr().is_terminal();
    let (mut told, mut any, mut done) = (Instant::now(), false, 0);
    move |portion| {
        done += portion.as_ref().map_or(0, Vec::len);
        if !seen && (told.elapsed().as_secs() >= 1 || any && done == wanted) {
            let end = if done == wanted { "\n" } else { "" };
            let _ = write!(io::stderr(), "\rshots: {done} of {wanted}{end}");
            (told, any) = (Instant::now(), true);
        }
    }
}

/// The name of a file, as far as it can be shown.
fn shown_name(file: &OsStr) -> String {
    if file == "-" {
        return "standard input".into();
    }
    shown(&file.to_string_lossy())
}

/// A file to read, or standard input.
fn opened(file: &OsStr) -> Result<Box<dyn BufRead>, String> {
    if file == "-" {
        return Ok(Box::new(io::stdin().lock()));
    }
    let opened = File::open(file).map_err(|e| unreadable(file, e))?;
    Ok(Box::new(BufReader::new(opened)))
}

/// The bytes of a list or a tape: if there are too many, one more than there may be.
fn contents(file: &OsStr) -> Result<Vec<u8>, String> {
    let mut bytes = vec![];
    let read = opened(file)?.take(MOST_BYTES as u64 + 1).read_to_end(&mut bytes);
    read.map_err(|e| unreadable(file, e)).map(|_| bytes)
}

fn unreadable(file: &OsStr, error: io::Error) -> String {
    format!("{}: cannot be read: {error}", shown_name(file))
}

fn write(file: &OsStr, bytes: &[u8]) -> Result<(), String> {
    std::fs::write(file, bytes).map_err(|e| format!("{}: cannot be written: {e}", shown_name(file)))
}

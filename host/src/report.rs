//! The outcome in words.

use crate::engine::{Compiled, Operation, Ordering, Report};
use crate::job::{Answers, Outcome, Portion, Query};
use crate::refusals::{query_refused, shots_refused, Explained};
use crate::source::{Placed, Source};
use crate::wording::{are, count, wrapped};
use crate::zero::Zero;
use std::fmt::Write;
use std::io;

/// What the text is about, besides the outcome.
pub struct Context<'a> {
    pub source: &'a Source,
    pub queries: &'a [Query],
    /// How many shots are wanted, and where their draws come from.
    pub shots: Option<usize>,
    pub draws: &'a str,
    pub digits: usize,
}

impl Context<'_> {
    /// Whether every answer is exactly the bit register's: the register claim, which is about the gates of the list and
    /// a run that was accepted.
    pub fn is_exact(&self, outcome: &Outcome) -> bool {
        self.source.is_register() && outcome.answers.is_ok()
    }
}

/// The whole report but for the shots.
pub fn words(context: &Context, outcome: &Outcome) -> String {
    let mut out = format!("{}\n", title(context.source));
    match (&outcome.answers, &outcome.compiled) {
        (Ok(answers), Some(compiled)) => {
            out += &format!("{}\n\n", accepted(&compiled.report));
            out += &found(context.source, compiled);
            out += &parities(&compiled.report, answers, context.digits);
            out += &trust(context, &compiled.report, answers);
            out += &replies(context, answers);
        }
        (Err(refused), compiled) => {
            out += &refusal(refused);
            if let Some(compiled) = compiled {
                out += &format!("\n{}", found(context.source, compiled));
            }
        }
        (Ok(_), None) => unreachable!("a run has a report"),
    }
    out
}

/// Prints shots as they come. The answer is false if a portion was refused.
pub fn shots(
    out: &mut dyn io::Write,
    context: &Context,
    n: usize,
    portions: &mut dyn Iterator<Item = Portion>,
) -> io::Result<bool> {
    let Some(wanted) = context.shots else { return Ok(true) };
    let many = count(wanted as u64, "shot");
    let head = format!("\n{many} from {}, qubit 0 first\n", context.draws);
    out.write_all(head.as_bytes())?;
    for portion in portions {
        let (text, refused) = match portion {
            Ok(shots) => (shots.iter().map(|s| bits(*s, n) + "\n").collect(), false),
            Err(r) => (format!("refused: {}\n", shots_refused(r)), true),
        };
        out.write_all(text.as_bytes())?;
        if refused {
            return Ok(false);
        }
    }
    Ok(true)
}

/// What to warn of: given matrices that are not unitary. Each warning begins with its place.
pub fn warnings(source: &Source) -> Vec<String> {
    let one = |(placed, off): (&Placed, f64)| {
        let place = placed.place();
        format!("{place}: the matrix is not unitary (off by {off:.1e}); it is run as it is")
    };
    source.not_unitary().into_iter().map(one).collect()
}

/// File, qubits, gates.
pub fn title(source: &Source) -> String {
    let n = source.header().map_or(0, |h| h.qubits);
    let mut parts = vec![count(n.into(), "qubit"), count(source.gates() as u64, "gate")];
    if source.labels() > 0 {
        parts.push(count(source.labels() as u64, "label"));
    }
    format!("{}: {}", source.name, parts.join(", "))
}

/// What it means that the run was accepted.
pub fn accepted(r: &Report) -> String {
    match r.interactions {
        0 => format!(
            "accepted: free-fermion within the tolerance ({} Gaussian)",
            all_blocks(r.blocks)
        ),
        k => format!("accepted, but {} {} left out", count(k, "interaction"), are(k)),
    }
}

fn all_blocks(k: u64) -> String {
    match k {
        0 => "no block that is not".into(),
        1 => "its one block is".into(),
        k => format!("all {k} blocks are"),
    }
}

/// Why the list was refused, where, and what to do.
fn refusal(refused: &Explained) -> String {
    let mut out = format!("refused: number {}\n\n", refused.refusal.number);
    item(&mut out, "why", &refused.why);
    if let Some(place) = &refused.place {
        item(&mut out, "where", place);
    }
    item(&mut out, "what to do", &refused.advice);
    out
}

/// A line for a refusal of the tape itself (questions 1 to 8).
pub fn refused_line(refused: &Explained) -> String {
    let place = refused.place.as_ref().map_or(String::new(), |p| format!("{p}: "));
    format!("{place}{} (refusal {}); {}", refused.why, refused.refusal.number, refused.advice)
}

/// Width of the names before items, and of lines.
const NAMES: usize = 14;
const WIDTH: usize = 100;

/// A name and a text, which is broken into lines.
fn item(out: &mut String, name: &str, text: &str) {
    for (i, line) in wrapped(text, WIDTH - NAMES).iter().enumerate() {
        let name = if i == 0 { name } else { "" };
        let _ = writeln!(out, "{name:NAMES$}{line}");
    }
}

/// What the detector found.
fn found(source: &Source, compiled: &Compiled) -> String {
    let r = &compiled.report;
    let mut out = String::new();
    item(&mut out, "blocks", &blocks(r));
    let tolerance = source.header().map_or(0.0, |h| h.tolerance);
    item(&mut out, "residual", &format!("{} (tolerance {tolerance:e})", residual(r.max_residual)));
    item(&mut out, "number", &number(compiled));
    if r.interactions > 0 {
        item(&mut out, "interactions", &interactions(compiled));
    }
    item(&mut out, "swaps", &format!("{} renamed", r.swaps));
    item(&mut out, "order", &order(r));
    item(&mut out, "angled", angled(r));
    out
}

/// The counts of blocks.
pub fn blocks(r: &Report) -> String {
    let mut text = format!(
        "{} = {} Gaussian + {} bad + {}; {} on two qubits",
        r.blocks,
        r.gaussian,
        r.bad,
        count(r.interactions, "interaction"),
        r.two_qubit
    );
    if r.nonadjacent > 0 {
        text += &format!("; {} of the bad are matchgates on wires apart", r.nonadjacent);
    }
    text
}

/// Whether the blocks keep the number of ones, as far as it was tested.
fn number(compiled: &Compiled) -> String {
    let r = &compiled.report;
    let untested = "diagonal ones on two qubits are not";
    match (compiled.number_conserving(), compiled.number_tested()) {
        (Some(false), _) => "not conserved by some block".into(),
        (_, None) => "not told: bad blocks are not tested for it".into(),
        (_, Some(0)) if r.blocks == 0 => "not tested: there is no block".into(),
        (_, Some(0)) => format!("not tested: no block was ({untested})"),
        (_, Some(k)) if k == r.blocks => "conserved by every block, within 1e-9".into(),
        (_, Some(k)) => {
            format!(
                "conserved within 1e-9 by the {k} of {} blocks that were tested ({untested})",
                r.blocks
            )
        }
    }
}

/// The largest residual: a small one as a power of ten, for its digits are noise of rounding.
fn residual(r: f64) -> String {
    if r == 0.0 {
        return "0".into();
    }
    let power = (-16..=-3).find(|k| r <= 10f64.powi(*k));
    power.map_or(format!("{r:.3}"), |k| format!("at most 1e{k}"))
}

/// The interactions, of which a few are named.
fn interactions(compiled: &Compiled) -> String {
    const NAMED: usize = 6;
    let order = &compiled.report.order;
    let named = compiled.operations.iter().filter_map(|o| match o {
        Operation::Interaction { modes: (a, b), unit, .. } => {
            let g = unit.1.atan2(unit.0);
            Some(format!("wires {} and {} by {g:+.6}", order[*a], order[*b]))
        }
        _ => None,
    });
    let mut named: Vec<String> = named.collect();
    let more = named.len().saturating_sub(NAMED);
    named.truncate(NAMED);
    if more > 0 {
        named.push(format!("{more} more"));
    }
    match named.is_empty() {
        true => count(compiled.report.interactions, "block"),
        false => named.join("; "),
    }
}

/// The order of the wires; a stroke stands before the first wire of a path.
pub fn order(r: &Report) -> String {
    let name = match r.ordering {
        Ordering::Identity => return "identity: the wires in the order of the qubits".into(),
        Ordering::Paths => "paths:",
        Ordering::Greedy => "greedy:",
    };
    let mut text = name.to_string();
    for (k, wire) in r.order.iter().enumerate() {
        let stroke = if k > 0 && r.starts[k] { "| " } else { "" };
        let _ = write!(text, " {stroke}{wire}");
    }
    text
}

fn angled(r: &Report) -> &'static str {
    match r.angled {
        false => "no: compare with the original Rust engine bit by bit",
        true => "yes, a diagonal block was tried: compare with the original within 1e-9",
    }
}

/// Whether a float is 1, -1 or 0.
fn is_whole(x: f64) -> bool {
    x == 0.0 || x.abs() == 1.0
}

/// An expectation: a float that is 1, -1 or 0 without digits after the point, and one that is none (a given matrix need not
/// be unitary) with a power of ten.
pub fn expectation(x: f64, digits: usize) -> String {
    match x {
        0.0 => "0".into(),
        1.0 => "+1".into(),
        -1.0 => "-1".into(),
        x if x.abs() >= 1e4 => format!("{x:+.digits$e}"),
        _ => format!("{x:+.digits$}"),
    }
}

/// A probability: small ones with a power of ten.
fn probability(x: f64, digits: usize) -> String {
    match x {
        0.0 => "0".into(),
        1.0 => "1".into(),
        x if !(1e-4..1e4).contains(&x) => format!("{x:.digits$e}"),
        _ => format!("{x:.digits$}"),
    }
}

/// A table of Z by qubit; a zero says where it comes from.
fn parities(r: &Report, answers: &Answers, digits: usize) -> String {
    let wide = digits + 4;
    let mut out = format!("\nqubit  mode  {:>wide$}\n", "Z");
    for (q, z) in answers.parities.iter().enumerate() {
        let mut text = expectation(z.value, digits);
        // A number without digits after the point stands with its last digit where the others have their first.
        if is_whole(z.value) {
            text = format!("{text:>3}{:w$}", "", w = wide - 3);
        }
        let zero = Zero::of(*z).map_or(String::new(), |zero| zero.to_string());
        let line = format!("{q:5}  {:4}  {text:>wide$}  {zero}", r.modes[q]);
        let _ = writeln!(out, "{}", line.trim_end());
    }
    out
}

/// What the numbers are worth.
fn trust(context: &Context, r: &Report, answers: &Answers) -> String {
    let mut out = String::from("\n");
    let mut texts = caveats(context.source, r);
    if !texts.contains(&REGISTER) {
        texts.push(ROUNDED);
    }
    let told = context.queries.iter().zip(&answers.queries);
    let told = told.filter_map(|(query, answer)| query.zero((*answer).ok()?));
    let zeros: Vec<Zero> = answers.zeros().chain(told).collect();
    texts.extend(about_zeros(context.source, &zeros));
    item(&mut out, "trust", &texts.join(" "));
    out
}

/// What the words beside these zeros mean.
pub fn about_zeros(source: &Source, zeros: &[Zero]) -> Vec<&'static str> {
    let found = zeros.iter().any(|zero| matches!(zero, Zero::Found(_)));
    let entries = found && !source.is_register();
    let worked_out = zeros.contains(&Zero::WorkedOut);
    let texts = [(found, FOUND), (entries, ENTRIES), (worked_out, WORKED_OUT)];
    texts.into_iter().filter_map(|(said, text)| said.then_some(text)).collect()
}

/// What must be said of all numbers, if anything must.
pub fn caveats(source: &Source, r: &Report) -> Vec<&'static str> {
    if source.is_register() {
        return vec![REGISTER];
    }
    let free_part = (r.interactions > 0).then_some(FREE_PART);
    let not_unitary = (!source.not_unitary().is_empty()).then_some(NOT_UNITARY);
    free_part.into_iter().chain(not_unitary).collect()
}

/// Said of register lists.
const REGISTER: &str =
    "exact: every gate is one of I X Y Z S Sdg Swap ISwap ISwapdg, and of such a \
    list it is proved that every answer is exactly that of a bit register fed the same gates.";
/// Said of all others.
const ROUNDED: &str = "rounded: the arithmetic is proved to be that of the definition, and no bound \
    on its rounding is. A 1, -1 or 0 without digits after the point is a float with that value; the \
    true value may lie beside it.";
/// Said where interactions were left out.
const FREE_PART: &str =
    "The answers are those of the free part, without the interactions, and not \
    those of the whole circuit.";
/// Said where the tool warns of a matrix.
const NOT_UNITARY: &str =
    "A given matrix is not unitary: the numbers need be no expectations and no \
    probabilities.";

/// Said where a zero was found;
const FOUND: &str =
    "A zero is found where the calculation meets a row with nothing to divide by. Two \
    rows belong to each listed qubit, in the order of the modes, but rows are exchanged on \
    the way: a row names no qubit.";
/// and this, unless the entries are those of a register list, which are exact.
const ENTRIES: &str = "The entries of that row may have been rounded before, even to zero.";
/// Said where a zero was worked out.
const WORKED_OUT: &str =
    "A zero is worked out where the arithmetic comes to 0.0, or for a marginal \
    to less or to no number: rounding can hide there too.";

/// The answers to what was asked besides.
fn replies(context: &Context, answers: &Answers) -> String {
    let n = answers.parities.len();
    let mut out = String::new();
    for (query, answer) in context.queries.iter().zip(&answers.queries) {
        let mut text = match (answer, query) {
            (Err(refusal), _) => format!("refused: {}", query_refused(query, *refusal, n)),
            (Ok(x), Query::Product(_)) => expectation(x.value, context.digits),
            (Ok(x), _) => probability(x.value, context.digits),
        };
        if let Some(zero) = answer.ok().and_then(|x| query.zero(x)) {
            text += &format!(" ({zero})");
        }
        let _ = writeln!(out, "{} {}: {text}", query.kind(), query.text());
    }
    if !out.is_empty() {
        out.insert(0, '\n');
    }
    out
}

/// The bits of a basis index, qubit 0 first.
pub fn bits(index: u128, n: usize) -> String {
    (0..n).map(|q| if index >> q & 1 == 1 { '1' } else { '0' }).collect()
}

#[cfg(test)]
mod tests {
    use super::*;
    use crate::engine::{fake::Fake, Engine};
    use crate::job::{self, Shots};

    const LIST: &str = "qubits 3\nh 0\nx 1\n";
    const REGISTER_LIST: &str = "qubits 3\nx 0\nswap 1 2\n";

    fn told_of(list: &str, fake: &Fake, queries: &[Query]) -> String {
        let source = Source::read("f", list.into(), &[]).expect("a list");
        let outcome = job::run(&source, queries, fake).expect("an outcome");
        let context =
            Context { source: &source, queries, shots: Some(1), draws: "a file", digits: 4 };
        assert_eq!(context.is_exact(&outcome), list == REGISTER_LIST && outcome.answers.is_ok());
        let mut out = words(&context, &outcome).into_bytes();
        if let Ok(answers) = &outcome.answers {
            let draws = Box::new([0.7, 0.1, 0.5].into_iter());
            let mut portions = Shots::new(fake, &answers.state, 1, draws);
            shots(&mut out, &context, 3, &mut portions).expect("room");
        }
        String::from_utf8(out).expect("text")
    }

    fn told(fake: &Fake, queries: &[Query]) -> String {
        told_of(LIST, fake, queries)
    }

    #[test]
    fn answers() {
        let queries = [
            Query::Product(vec![0, 1]),
            Query::Product(vec![0, 3]),
            Query::Marginal(vec![(0, 1)]),
            Query::Index(vec![0, 1, 0]),
        ];
        let text = told(&Fake::accepting(&[-1.0, 0.25, -0.0]), &queries);
        for line in [
            "f: 3 qubits, 2 gates\n",
            "accepted: free-fermion within the tolerance (all 3 blocks are Gaussian)\n",
            "residual      at most 1e-15 (tolerance 1e-10)\n",
            "    0     0   -1\n    1     1   +0.2500\n    2     2    0       found: row 0\n",
            "product 0,1: -0.2500\n",
            "product 0,3: refused: qubit 3 is not below 3\n",
            "marginal 0=1: 1.2500e-7\n",
            "index 010: 1\n",
            "1 shot from a file, qubit 0 first\n101\n",
        ] {
            assert!(text.contains(line), "{line}\n{text}");
        }
    }

    #[test]
    fn zeros_say_where_they_come_from() {
        let fake = Fake::accepting(&[1e-200, -0.0, 1e-200, 1.0, 0.5]);
        let queries = [
            Query::Product(vec![0, 1]),
            Query::Product(vec![0, 2]),
            Query::Marginal(vec![(0, 1), (3, 1)]),
            Query::Marginal(vec![(3, 0), (4, 0)]),
            Query::Marginal(vec![(4, 0), (3, 0), (4, 1)]),
            Query::Index(vec![0; 5]),
        ];
        let text = told(&fake, &queries);
        assert!(
            text.contains("    0     0   +0.0000\n    1     1    0       found: row 0\n"),
            "{text}"
        );
        let replies = "
product 0,1: 0 (found: row 2)
product 0,2: 0 (worked out)
marginal 0=1,3=1: 0 (found: row 2)
marginal 3=0,4=0: 0 (worked out)
marginal 4=0,3=0,4=1: 0 (the list contradicts itself)
index 00000: 0
";
        assert!(text.contains(replies), "{text}");
    }

    /// The words beside zeros are explained, and no others.
    #[test]
    fn what_is_meant_by_the_words_beside_zeros() {
        let said = |list: &str, parities: &[f64], query: Query| {
            let text = told_of(list, &Fake::accepting(parities), &[query]);
            let text = text.split_whitespace().collect::<Vec<_>>().join(" ");
            [FOUND, ENTRIES, WORKED_OUT].map(|meaning| text.contains(meaning))
        };
        let marginal = |q, bit| Query::Marginal(vec![(q, bit)]);
        let none = [1.0, 1.0, 0.5];
        assert_eq!(said(LIST, &none, marginal(0, 0)), [false, false, false]);
        assert_eq!(said(LIST, &none, marginal(0, 1)), [true, true, false]);
        assert_eq!(said(LIST, &none, marginal(2, 1)), [false, false, true]);
        assert_eq!(said(LIST, &[1.0, 0.0, 0.5], marginal(2, 1)), [true, true, true]);
        assert_eq!(said(LIST, &none, Query::Index(vec![1; 3])), [false, false, false]);
        let contradiction = Query::Marginal(vec![(0, 0), (0, 1)]);
        assert_eq!(said(LIST, &none, contradiction), [false, false, false]);
        assert_eq!(said(REGISTER_LIST, &none, marginal(0, 1)), [true, false, false]);
    }

    #[test]
    fn exact_is_said_of_register_lists_only() {
        let mut fake = Fake::accepting(&[1.0, -1.0, 0.0]);
        fake.compiled.report.max_residual = 0.0;
        let queries = [Query::Product(vec![0])];
        let register = told_of(REGISTER_LIST, &fake, &queries);
        assert!(
            register.contains("\ntrust         exact: every gate is one of I X Y"),
            "{register}"
        );
        assert!(!register.contains("rounded"), "{register}");
        let other = told(&fake, &queries);
        assert!(other.contains("\ntrust         rounded: "), "{other}");
        assert!(
            other.contains("residual      0 (") && other.contains("product 0: +1\n"),
            "{other}"
        );
        assert!(!other.contains("exact"), "{other}");
        let refused = told_of(REGISTER_LIST, &Fake::refusing(3, 14, 0), &[]);
        assert!(!refused.contains("exact"), "{refused}");
    }

    #[test]
    fn the_number_is_conserved_where_it_was_tested() {
        // 1 block on one qubit and 2 matchgates, unless told otherwise
        let said = |change: &dyn Fn(&mut Compiled)| {
            let mut fake = Fake::accepting(&[1.0; 3]);
            change(&mut fake.compiled);
            told(&fake, &[])
        };
        let is = |text: String, want: &str| {
            assert!(text.contains(&format!("number        {want}\n")), "{want}\n{text}")
        };
        is(said(&|_| ()), "conserved by every block, within 1e-9");
        is(said(&|c| c.report.number_conserving = false), "not conserved by some block");
        is(said(&|c| c.report.bad = 1), "not told: bad blocks are not tested for it");
        let diagonal = |c: &mut Compiled| {
            c.operations.retain(|o| !matches!(o, Operation::Two { .. }));
        };
        let part =
            "conserved within 1e-9 by the 1 of 3 blocks that were tested (diagonal ones on two\n\
                    \x20             qubits are not)";
        is(said(&diagonal), part);
        let none = |c: &mut Compiled| {
            diagonal(c);
            (c.report.blocks, c.report.gaussian) = (2, 2);
        };
        is(said(&none), "not tested: no block was (diagonal ones on two qubits are not)");
        let empty = |c: &mut Compiled| {
            c.operations.clear();
            (c.report.blocks, c.report.two_qubit) = (0, 0);
        };
        is(said(&empty), "not tested: there is no block");
    }

    #[test]
    fn shots_are_written_as_they_come() {
        let fake = Fake::accepting(&[1.0; 3]);
        let source = Source::read("f", LIST.into(), &[]).expect("a list");
        let state = fake.run(&source.tape).expect("a run").state;
        let context =
            Context { source: &source, queries: &[], shots: Some(150), draws: "f", digits: 4 };
        // A writer with room for the head and one portion: no further portion may be asked for.
        let mut room = [0u8; 300];
        let mut asked = 0;
        let draws = Box::new(std::iter::repeat(0.5));
        let mut portions = Shots::new(&fake, &state, 150, draws).inspect(|_| asked += 1);
        let full = shots(&mut &mut room[..], &context, 3, &mut portions).expect_err("no room");
        assert_eq!(full.kind(), io::ErrorKind::WriteZero);
        assert_eq!(asked, 2);
    }

    #[test]
    fn numbers_that_are_no_expectations() {
        for (x, want) in [(-1.5e300, "-1.5000e300"), (f64::NAN, "NaN"), (f64::INFINITY, "+inf")] {
            assert_eq!(expectation(x, 4), want);
        }
        assert_eq!(probability(3e200, 2), "3.00e200");
    }

    #[test]
    fn warnings_begin_with_their_place() {
        let list = "qubits 1\nmatrix 0 1,0 0,0 0,0 0.5,0\n";
        let source = Source::read("f", list.into(), &[]).expect("a list");
        let want = "line 2: the matrix is not unitary (off by 7.5e-1); it is run as it is";
        assert_eq!(warnings(&source), [want]);
        let tape = Source::read("f", source.tape, &[]).expect("a tape");
        assert!(warnings(&tape)[0].starts_with("gate 1 (byte 20): "));
        let report = Fake::accepting(&[1.0]).compiled.report;
        assert_eq!(caveats(&tape, &report), [NOT_UNITARY]);
    }

    #[test]
    fn interactions_and_paths() {
        let mut fake = Fake::accepting(&[1.0; 3]);
        let r = &mut fake.compiled.report;
        (r.interactions, r.gaussian, r.exact) = (1, 2, false);
        (r.ordering, r.order, r.starts) = (Ordering::Paths, vec![2, 0, 1], vec![true, false, true]);
        fake.compiled.operations =
            vec![Operation::Interaction { modes: (0, 2), block: 1, unit: (0.0, -1.0) }];
        let text = told(&fake, &[]);
        for line in [
            "accepted, but 1 interaction is left out\n",
            "interactions  wires 2 and 1 by -1.570796\n",
            "order         paths: 2 0 | 1\n",
            "The answers are those of the free part",
        ] {
            assert!(text.contains(line), "{line}\n{text}");
        }
    }

    #[test]
    fn refusals() {
        for (number, why) in [
            (11, "matchgates whose wires are no neighbours in the order: 0 of 3 blocks"),
            (12, "not free-fermion: 1 of 3 blocks is neither matchgate nor diagonal"),
            (13, "there are interactions (controlled phases)"),
            (14, "the covariance matrix needs 288 bytes, and the limit is 1073741824"),
        ] {
            let text = told(&Fake::refusing(3, number, 0), &[]);
            assert!(text.contains(&format!("refused: number {number}\n")), "{text}");
            assert!(text.contains(why), "{text}");
            assert!(text.contains("what to do    "), "{text}");
        }
    }
}

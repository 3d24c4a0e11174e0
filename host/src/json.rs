//! The outcome as JSON (RFC 8259): for programs, with every digit.

use crate::engine::{self, Compiled, Operation, Ordering, Refusal, Report};
use crate::job::{Answers, Outcome, Portion, Query};
use crate::refusals::{is_fault, query_refused, shots_refused, Explained};
use crate::report::{self, bits, refused_line, Context};
use crate::tape::Record;
use crate::zero::Zero;
use std::{fmt, io};

/// A JSON value.
pub enum Value {
    Null,
    Bool(bool),
    Number(f64),
    Whole(u64),
    Text(String),
    List(Vec<Value>),
    Object(Vec<(&'static str, Value)>),
}

use Value::{Bool, List, Null, Number, Object, Text, Whole};

impl fmt::Display for Value {
    fn fmt(&self, f: &mut fmt::Formatter) -> fmt::Result {
        self.write(f, 0)
    }
}

impl Value {
    fn is_plain(&self) -> bool {
        !matches!(self, List(_) | Object(_))
    }

    /// Writes the value; lines inside it are indented.
    fn write(&self, f: &mut fmt::Formatter, depth: usize) -> fmt::Result {
        match self {
            Null => f.write_str("null"),
            Bool(b) => write!(f, "{b}"),
            // JSON has no name for what is no number.
            Number(x) if !x.is_finite() => f.write_str("null"),
            Number(x) => write!(f, "{x:?}"),
            Whole(k) => write!(f, "{k}"),
            Text(t) => write_text(f, t),
            List(items) => {
                let short = items.iter().all(|v| matches!(v, Whole(_) | Bool(_)));
                write_all(f, "[]", depth, short, items, |f, v| v.write(f, depth + 1))
            }
            Object(members) => {
                let short = depth > 1 && members.iter().all(|(_, v)| v.is_plain());
                write_all(f, "{}", depth, short, members, |f, (name, v)| {
                    write!(f, "\"{name}\": ")?;
                    v.write(f, depth + 1)
                })
            }
        }
    }
}

/// Writes items between brackets, on one line or on a line each.
fn write_all<T>(
    f: &mut fmt::Formatter,
    brackets: &str,
    depth: usize,
    short: bool,
    items: &[T],
    write: impl Fn(&mut fmt::Formatter, &T) -> fmt::Result,
) -> fmt::Result {
    let short = short || items.is_empty();
    let line = |depth: usize| format!("\n{}", "  ".repeat(depth));
    f.write_str(&brackets[..1])?;
    for (i, item) in items.iter().enumerate() {
        f.write_str(if i == 0 { "" } else { "," })?;
        match (short, i) {
            (true, 0) => {}
            (true, _) => f.write_str(" ")?,
            (false, _) => f.write_str(&line(depth + 1))?,
        }
        write(f, item)?;
    }
    f.write_str(&if short { String::new() } else { line(depth) })?;
    f.write_str(&brackets[1..])
}

fn write_text(f: &mut fmt::Formatter, text: &str) -> fmt::Result {
    f.write_str("\"")?;
    for c in text.chars() {
        match c {
            '"' | '\\' => write!(f, "\\{c}")?,
            '\n' => f.write_str("\\n")?,
            c if (c as u32) < 0x20 => write!(f, "\\u{:04x}", c as u32)?,
            c => write!(f, "{c}")?,
        }
    }
    f.write_str("\"")
}

fn text(t: &str) -> Value {
    Text(t.to_string())
}

fn optional(x: Option<Value>) -> Value {
    x.unwrap_or(Null)
}

fn whole(k: usize) -> Value {
    Whole(k as u64)
}

/// A fault before there is an outcome.
pub fn fault(message: &str, line: Option<usize>) -> Value {
    Object(vec![("error", error(message, line))])
}

fn error(message: &str, line: Option<usize>) -> Value {
    Object(vec![("message", text(message)), ("line", optional(line.map(whole)))])
}

/// The whole outcome but for the shots.
pub fn value(context: &Context, outcome: &Outcome) -> Value {
    let source = context.source;
    let labels = source.records.iter().filter_map(|p| match &p.record {
        Record::Label(text) => Some(Text(String::from_utf8_lossy(text).into_owned())),
        Record::Gate { .. } => None,
    });
    let refused = outcome.answers.as_ref().err();
    let fault = refused.filter(|r| is_fault(r.refusal));
    let fault = fault.map(|r| error(&format!("{}: {}", source.name, refused_line(r)), r.line));
    let warnings = outcome.compiled.iter().flat_map(|_| report::warnings(source));
    let mut members = vec![
        ("error", optional(fault)),
        ("warnings", List(warnings.map(Text).collect())),
        ("file", text(&source.name)),
        ("gates", whole(source.gates())),
        ("labels", List(labels.collect())),
        ("register", Bool(source.is_register())),
        ("accepted", Bool(outcome.answers.is_ok())),
        ("exact", Bool(context.is_exact(outcome))),
        ("refusal", optional(refused.map(refusal))),
        ("report", optional(outcome.compiled.as_ref().map(report))),
        ("interactions", optional(outcome.compiled.as_ref().map(interactions))),
    ];
    if let (Ok(answers), Some(compiled)) = (&outcome.answers, &outcome.compiled) {
        members.extend(replies(context, &compiled.report, answers));
    }
    Object(members)
}

/// Prints the outcome, and the shots as they come. The answer is false if a portion was refused.
pub fn write(
    out: &mut dyn io::Write,
    context: &Context,
    outcome: &Outcome,
    portions: &mut dyn Iterator<Item = Portion>,
) -> io::Result<bool> {
    let whole = value(context, outcome).to_string();
    let (Ok(answers), Some(_)) = (&outcome.answers, context.shots) else {
        return writeln!(out, "{whole}").map(|()| true);
    };
    let open = whole.strip_suffix("\n}").unwrap_or(&whole);
    let draws = text(context.draws);
    out.write_all(format!("{open},\n  \"draws\": {draws},\n  \"shots\": [").as_bytes())?;
    let (mut refused, mut comma) = (None, "");
    for portion in portions {
        let shots = portion.unwrap_or_else(|r| {
            refused = Some(r);
            vec![]
        });
        let mut lines = String::new();
        for shot in shots {
            lines += &format!("{comma}\n    \"{}\"", bits(shot, answers.parities.len()));
            comma = ",";
        }
        out.write_all(lines.as_bytes())?;
    }
    let end = if comma.is_empty() { "" } else { "\n  " };
    let why = optional(refused.map(|r| Object(query_refusal(r, shots_refused(r)))));
    let end = format!("{end}],\n  \"shots_refused\": {}\n}}\n", Inner(&why));
    out.write_all(end.as_bytes()).map(|()| refused.is_none())
}

/// A value as a member of the outermost object.
struct Inner<'a>(&'a Value);

impl fmt::Display for Inner<'_> {
    fn fmt(&self, f: &mut fmt::Formatter) -> fmt::Result {
        self.0.write(f, 1)
    }
}

fn refusal(r: &Explained) -> Value {
    Object(vec![
        ("number", Whole(r.refusal.number)),
        ("place", Whole(r.refusal.place)),
        ("line", optional(r.line.map(whole))),
        ("where", optional(r.place.as_deref().map(text))),
        ("why", text(&r.why)),
        ("advice", text(&r.advice)),
    ])
}

fn report(compiled: &Compiled) -> Value {
    let r = &compiled.report;
    let ordering = match r.ordering {
        Ordering::Identity => "identity",
        Ordering::Paths => "paths",
        Ordering::Greedy => "greedy",
    };
    let wholes = |list: &[usize]| List(list.iter().map(|k| whole(*k)).collect());
    Object(vec![
        ("qubits", whole(r.n)),
        ("blocks", Whole(r.blocks)),
        ("two_qubit_blocks", Whole(r.two_qubit)),
        ("gaussian", Whole(r.gaussian)),
        ("bad", Whole(r.bad)),
        ("nonadjacent", Whole(r.nonadjacent)),
        ("interactions", Whole(r.interactions)),
        ("swaps_relabelled", Whole(r.swaps)),
        ("fraction", Number(r.fraction)),
        ("max_residual", Number(r.max_residual)),
        ("number_conserving", optional(compiled.number_conserving().map(Bool))),
        ("number_tested", optional(compiled.number_tested().map(Whole))),
        ("all_gaussian", Bool(r.exact)),
        ("free", Bool(r.free)),
        ("angled", Bool(r.angled)),
        ("ordering", text(ordering)),
        ("order", wholes(&r.order)),
        ("path_starts", List(r.starts.iter().map(|s| Bool(*s)).collect())),
        ("modes", wholes(&r.modes)),
    ])
}

fn interactions(compiled: &Compiled) -> Value {
    let one = |o: &Operation| match o {
        Operation::Interaction { modes, block, unit } => Some(Object(vec![
            ("block", whole(*block)),
            ("modes", List(vec![whole(modes.0), whole(modes.1)])),
            ("re", Number(unit.0)),
            ("im", Number(unit.1)),
        ])),
        _ => None,
    };
    List(compiled.operations.iter().filter_map(one).collect())
}

/// Parities and queries.
fn replies(context: &Context, r: &Report, answers: &Answers) -> Vec<(&'static str, Value)> {
    let parity = |(q, z): (usize, &engine::Number)| {
        let mut members =
            vec![("qubit", whole(q)), ("mode", whole(r.modes[q])), ("z", Number(z.value))];
        members.extend(origin(*z, Zero::of(*z)));
        Object(members)
    };
    let queries = context.queries.iter().zip(&answers.queries);
    let queries = queries.map(|(query, answer)| {
        let mut members = vec![("kind", text(query.kind())), ("asked", Text(query.text()))];
        match answer {
            Ok(x) => {
                members.push(("value", Number(x.value)));
                if !matches!(query, Query::Index(_)) {
                    members.extend(origin(*x, query.zero(*x)));
                }
            }
            Err(r) => {
                let why = query_refused(query, *r, answers.parities.len());
                members.extend(query_refusal(*r, why));
            }
        }
        Object(members)
    });
    vec![
        ("parities", List(answers.parities.iter().enumerate().map(parity).collect())),
        ("queries", List(queries.collect())),
    ]
}

/// The row of a number, and where it comes from if it is zero.
fn origin(x: engine::Number, zero: Option<Zero>) -> [(&'static str, Value); 2] {
    [("row", optional(x.row.map(whole))), ("zero", optional(zero.map(|zero| text(zero.word()))))]
}

fn query_refusal(r: Refusal, why: String) -> Vec<(&'static str, Value)> {
    vec![("refused", Whole(r.number)), ("place", Whole(r.place)), ("why", Text(why))]
}

#[cfg(test)]
mod tests {
    use super::*;
    use crate::engine::fake::Fake;
    use crate::job::{self, Shots};
    use crate::source::Source;

    #[test]
    fn values() {
        let v = Object(vec![
            ("a", List(vec![Whole(1), Whole(2)])),
            ("b", Text("q\"\\\u{1}".into())),
            ("c", Number(f64::NAN)),
            ("d", List(vec![Number(-0.1), Null])),
        ]);
        let want = "{\n  \"a\": [1, 2],\n  \"b\": \"q\\\"\\\\\\u0001\",\n  \"c\": null,\n  \
                    \"d\": [\n    -0.1,\n    null\n  ]\n}";
        assert_eq!(v.to_string(), want);
    }

    const LIST: &str = "qubits 2\nrx 1 0.3\n";

    fn told(list: &str, fake: &Fake, queries: &[Query], draws: &[f64]) -> String {
        let source = Source::read("f", list.into(), &[]).expect("a list");
        let outcome = job::run(&source, queries, fake).expect("an outcome");
        let shots = draws.len() / 2;
        let context =
            Context { source: &source, queries, shots: Some(shots), draws: "seed", digits: 9 };
        let mut out = vec![];
        let all = match &outcome.answers {
            Err(_) => write(&mut out, &context, &outcome, &mut std::iter::empty()),
            Ok(answers) => {
                let draws = Box::new(draws.iter().copied());
                let mut portions = Shots::new(fake, &answers.state, shots, draws);
                write(&mut out, &context, &outcome, &mut portions)
            }
        };
        let text = String::from_utf8(out).expect("text");
        assert_eq!(all.expect("room"), !text.contains("\"shots_refused\": {"));
        text
    }

    #[test]
    fn an_outcome() {
        let fake = Fake::accepting(&[1.0, 0.1 + 0.2]);
        let queries = [Query::Product(vec![0, 5])];
        let text = told(LIST, &fake, &queries, &[0.0, 0.9, 0.7, 0.1]);
        for part in [
            "{\n  \"error\": null,\n  \"warnings\": [],\n",
            "\"exact\": false,\n",
            "\"z\": 0.30000000000000004, \"row\": null, \"zero\": null}",
            "\"refused\": 19, \"place\": 1, \"why\": \"qubit 5 is not below 2\"}",
            "\"order\": [0, 1]",
            "  ],\n  \"draws\": \"seed\",\n",
            "  \"shots\": [\n    \"01\",\n    \"10\"\n  ],\n  \"shots_refused\": null\n}\n",
        ] {
            assert!(text.contains(part), "{part}\n{text}");
        }
        let none = told(LIST, &fake, &queries, &[]);
        assert!(none.ends_with("\"shots\": [],\n  \"shots_refused\": null\n}\n"), "{none}");
    }

    #[test]
    fn zeros_say_where_they_come_from() {
        let queries = [
            Query::Product(vec![1, 0]),
            Query::Product(vec![2, 3]),
            Query::Product(vec![1]),
            Query::Marginal(vec![(1, 0), (1, 1)]),
            Query::Index(vec![0; 4]),
        ];
        let text = told(LIST, &Fake::accepting(&[0.0, 0.5, 1e-200, 1e-200]), &queries, &[]);
        for part in [
            "{\"qubit\": 0, \"mode\": 0, \"z\": 0.0, \"row\": 0, \"zero\": \"found\"},",
            "{\"qubit\": 1, \"mode\": 1, \"z\": 0.5, \"row\": null, \"zero\": null},",
            "\"asked\": \"1,0\", \"value\": 0.0, \"row\": 2, \"zero\": \"found\"},",
            "\"asked\": \"2,3\", \"value\": 0.0, \"row\": null, \"zero\": \"worked out\"},",
            "\"asked\": \"1\", \"value\": 0.5, \"row\": null, \"zero\": null},",
            "\"asked\": \"1=0,1=1\", \"value\": 0.0, \"row\": null, \"zero\": \"contradiction\"},",
            "\"asked\": \"0000\", \"value\": 0.0}\n",
        ] {
            assert!(text.contains(part), "{part}\n{text}");
        }
    }

    #[test]
    fn exact_is_true_of_register_lists_only() {
        let fake = Fake::accepting(&[1.0, -1.0]);
        let count = |text: String| text.matches("\"exact\": true").count();
        assert_eq!(count(told("qubits 2\nx 1\n", &fake, &[], &[])), 1);
        assert_eq!(count(told(LIST, &fake, &[], &[])), 0);
        assert_eq!(count(told("qubits 2\nx 1\n", &Fake::refusing(2, 14, 0), &[], &[])), 0);
    }

    #[test]
    fn a_number_that_was_not_tested_is_null() {
        let mut fake = Fake::accepting(&[1.0, 1.0]);
        let want = "\"number_conserving\": true,\n    \"number_tested\": 2,";
        assert!(told(LIST, &fake, &[], &[]).contains(want));
        let mut empty = Fake::accepting(&[]);
        (empty.compiled.report.blocks, empty.compiled.report.two_qubit) = (0, 0);
        let want = "\"number_conserving\": null,\n    \"number_tested\": 0,";
        assert!(told("qubits 0\n", &empty, &[], &[]).contains(want));
        fake.compiled.report.bad = 1;
        let want = "\"number_conserving\": null,\n    \"number_tested\": null,";
        assert!(told(LIST, &fake, &[], &[]).contains(want));
    }

    #[test]
    fn refusals_and_errors() {
        let tape = told("qubits 2\nx 0\nx 9\n", &Fake::refusing(2, 6, 1), &[], &[]);
        let message =
            "\"message\": \"f: line 3, `x 9`: qubit 9 is not below 2 (refusal 6); correct";
        assert!(tape.contains(message) && tape.contains("    \"line\": 3\n  },"), "{tape}");
        let circuit = told("qubits 2\nh 0\n", &Fake::refusing(2, 12, 0), &[], &[]);
        assert!(circuit.contains("\"error\": null,") && circuit.contains("\"number\": 12,"));
        let shots = told(LIST, &Fake::accepting(&[1.0; 2]), &[], &[0.5, 1.0]);
        assert!(shots.contains("\"shots\": [],\n  \"shots_refused\": {\n    \"refused\": 22,"));
        let fault = fault("f: line 3: \"x\"", Some(3)).to_string();
        let want = "{\n  \"error\": {\n    \"message\": \"f: line 3: \\\"x\\\"\",\n    \"line\": 3\n  }\n}";
        assert_eq!(fault, want);
    }
}

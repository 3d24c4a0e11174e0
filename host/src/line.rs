//! One line of a gate list: its words, and the record of a gate, a given matrix or a label.

use crate::gates::{self, Form};
use crate::layout::{given_floats, MAX_LABEL};
use crate::tape::{Record, GIVEN1, GIVEN2};
use crate::wording::count;

/// Most bytes of a word: as many as the longest decimal number of an f64 needs.
pub const LONGEST_WORD: usize = 1100;

/// The words of a line without its comment. A text in quotes is one word that keeps its opening
/// quote.
pub fn words(line: &str) -> Result<Vec<String>, String> {
    let mut words = vec![];
    let mut rest = line.trim_start();
    while !rest.is_empty() && !rest.starts_with('#') {
        let (word, after) = if rest.starts_with('"') { quoted(rest)? } else { plain(rest) };
        if word.len() > LONGEST_WORD {
            return Err(format!("a word of {} bytes is no name and no number", word.len()));
        }
        words.push(word);
        rest = after.trim_start();
    }
    Ok(words)
}

/// The plain word at the start of a text, and what follows it.
fn plain(text: &str) -> (String, &str) {
    let end = text.find(|c: char| c.is_whitespace() || c == '#').unwrap_or(text.len());
    (text[..end].to_string(), &text[end..])
}

/// The quoted text at the start of a text, and what follows it. In it a backslash stands before a
/// quote or a backslash that belongs to the text.
fn quoted(text: &str) -> Result<(String, &str), String> {
    let mut word = String::from('"');
    let mut chars = text.char_indices().skip(1);
    while let Some((i, c)) = chars.next() {
        match c {
            '"' => return Ok((word, &text[i + 1..])),
            '\\' => match chars.next() {
                Some((_, c @ ('"' | '\\'))) => word.push(c),
                _ => return Err("a backslash must stand before a quote or a backslash".into()),
            },
            _ => word.push(c),
        }
    }
    Err("the quote is not closed".into())
}

/// The record of a line, of a list with n qubits.
pub fn record(first: &str, rest: &[String], n: u8) -> Result<Record, String> {
    if first.eq_ignore_ascii_case("label") {
        return label(rest);
    }
    if first.eq_ignore_ascii_case("matrix") {
        return matrix(rest, n);
    }
    let kind = gates::named(first).ok_or_else(|| unknown(first))?;
    if rest.len() != kind.qubits + kind.angles {
        return Err(format!(
            "`{first}` takes {}, not {}",
            numbers(kind),
            count(rest.len() as u64, "number")
        ));
    }
    let (qubits, angles) = rest.split_at(kind.qubits);
    let qubits = qubits.iter().map(|w| qubit(w, n)).collect::<Result<_, _>>()?;
    let angles: Vec<f64> = angles.iter().map(|w| angle(w)).collect::<Result<_, _>>()?;
    let (code, entries) = match kind.form {
        Form::Code(code) => (code, vec![]),
        Form::Given1(f) => (GIVEN1, flat(&f(&angles))),
        Form::Given2(f) => (GIVEN2, flat(&f(&angles))),
    };
    Ok(Record::Gate { code, qubits, entries })
}

fn flat(m: &[gates::Complex]) -> Vec<f64> {
    m.iter().flat_map(|z| [z.0, z.1]).collect()
}

/// What a gate takes, in words.
fn numbers(kind: &gates::Kind) -> String {
    let qubits = count(kind.qubits as u64, "qubit");
    if kind.angles == 0 {
        return qubits;
    }
    format!("{qubits} and {}", count(kind.angles as u64, "angle"))
}

/// What to say of a name that is no gate's, with the gate that it is one letter away from.
fn unknown(name: &str) -> String {
    let lower = name.to_ascii_lowercase();
    let near = gates::KINDS.iter().find(|k| k.name.len() > 1 && one_off(&lower, k.name));
    let hint = near.map_or(String::new(), |k| format!("; is `{}` meant?", k.name));
    format!("`{name}` is no gate and no setting{hint}")
}

/// Whether two words differ by one letter changed, left out or put in, or by two neighbours
/// exchanged.
fn one_off(a: &str, b: &str) -> bool {
    let start = a.bytes().zip(b.bytes()).take_while(|(x, y)| x == y).count();
    let (a, b) = (&a.as_bytes()[start..], &b.as_bytes()[start..]);
    match (a, b) {
        ([], [_]) | ([_], []) => true,
        ([x, after @ ..], [y, beyond @ ..]) => {
            let exchanged = after.first() == Some(y) && beyond.first() == Some(x);
            after == beyond || after == b || a == beyond || exchanged && after[1..] == beyond[1..]
        }
        _ => false,
    }
}

/// A qubit. Whether it is below n is for the engine to say, unless it does not fit on a tape.
fn qubit(word: &str, n: u8) -> Result<u8, String> {
    if word.is_empty() || !word.bytes().all(|b| b.is_ascii_digit()) {
        return Err(format!("`{word}` is no qubit: a whole number from 0"));
    }
    word.parse().map_err(|_| format!("qubit {word} is not below {n}"))
}

fn angle(word: &str) -> Result<f64, String> {
    let none = || format!("`{word}` is no angle: a number of radians, or a part of pi as in -pi/2");
    gates::angle(word).ok_or_else(none)
}

fn label(rest: &[String]) -> Result<Record, String> {
    let text = match rest {
        [word] => word.strip_prefix('"'),
        _ => None,
    };
    let text = text.ok_or("a label is one text in quotes")?;
    if text.len() > MAX_LABEL || !text.bytes().all(|b| (0x20..=0x7E).contains(&b)) {
        return Err(format!("a label has at most {MAX_LABEL} characters, all of them plain ASCII"));
    }
    Ok(Record::Label(text.as_bytes().to_vec()))
}

/// A given matrix: its qubits, then its entries.
fn matrix(rest: &[String], n: u8) -> Result<Record, String> {
    let arity = rest.iter().take_while(|w| !w.contains(',')).count();
    let code = match arity {
        1 => GIVEN1,
        2 => GIVEN2,
        _ => return Err("`matrix` takes one or two qubits, then entries `re,im`".into()),
    };
    let (qubits, entries) = rest.split_at(arity);
    let size = given_floats(arity) / 2;
    if entries.len() != size {
        let on = count(arity as u64, "qubit");
        return Err(format!("a matrix on {on} has {size} entries, not {}", entries.len()));
    }
    let qubits = qubits.iter().map(|w| qubit(w, n)).collect::<Result<_, _>>()?;
    let entries: Vec<_> = entries.iter().map(|w| entry(w)).collect::<Result<_, _>>()?;
    Ok(Record::Gate { code, qubits, entries: entries.concat() })
}

fn entry(word: &str) -> Result<[f64; 2], String> {
    let parts = word.split_once(',').and_then(|(re, im)| gates::number(re).zip(gates::number(im)));
    let (re, im) = parts.ok_or_else(|| format!("`{word}` is no entry: two numbers `re,im`"))?;
    Ok([re, im])
}

#[cfg(test)]
mod tests {
    use super::*;

    fn read(line: &str) -> Result<Record, String> {
        let words = words(line)?;
        record(&words[0], &words[1..], 60)
    }

    #[test]
    fn a_record_reads_back() {
        for line in [
            "x 0",
            "ISwap 0 59",
            "ccx 0 1 2",
            "t 4",
            "rx 3 0.25",
            "u 2 0.1 0.2 pi",
            "cphase 7 8 -1.5",
            "matrix 3 1,0 -0,0 0,-0 0.1,1e-300",
            r#"label "a \"b\" \\ # c ""#,
            r#"label """#,
        ] {
            let r = read(line).expect(line);
            assert_eq!(read(&r.text()).expect(line), r, "{line}");
            assert_eq!(crate::tape::record_at(&r.bytes(), 0), Some(r));
        }
    }

    #[test]
    fn signed_zeros_are_kept() {
        let Ok(Record::Gate { entries, .. }) = read("matrix 0 1,-0 -0,0 0,0 1,0") else { panic!() };
        assert!(entries[1].is_sign_negative() && entries[2].is_sign_negative());
    }

    #[test]
    fn faults_name_the_reason() {
        for (line, want) in [
            ("isawp 0 1", "`isawp` is no gate and no setting; is `iswap` meant?"),
            ("iswp 0 1", "`iswp` is no gate and no setting; is `iswap` meant?"),
            ("frob 0", "`frob` is no gate and no setting"),
            ("x", "`x` takes 1 qubit, not 0 numbers"),
            ("rx 3", "`rx` takes 1 qubit and 1 angle, not 1 number"),
            ("iswap 0 1 2", "`iswap` takes 2 qubits, not 3 numbers"),
            ("x -1", "`-1` is no qubit: a whole number from 0"),
            ("x q3", "`q3` is no qubit: a whole number from 0"),
            ("x 300", "qubit 300 is not below 60"),
            ("rx 3 O.25", "`O.25` is no angle: a number of radians, or a part of pi as in -pi/2"),
            ("rx 3 nan", "`nan` is no angle: a number of radians, or a part of pi as in -pi/2"),
            ("label start", "a label is one text in quotes"),
            ("label \"start", "the quote is not closed"),
            ("label \"ü\"", "a label has at most 40 characters, all of them plain ASCII"),
            ("matrix 0 1,0", "a matrix on 1 qubit has 4 entries, not 1"),
            ("matrix 1,0", "`matrix` takes one or two qubits, then entries `re,im`"),
            ("matrix 0 1,0 0,0 0,0 0,z", "`0,z` is no entry: two numbers `re,im`"),
        ] {
            assert_eq!(read(line), Err(want.to_string()), "{line}");
        }
        let long = read(&"x".repeat(5000));
        assert_eq!(long, Err("a word of 5000 bytes is no name and no number".into()));
    }
}

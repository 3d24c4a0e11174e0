//! The gate list as text: settings, then one gate or label a line. `HELP` describes the format for
//! people; `line` reads the single lines.

use crate::fault::Fault;
use crate::gates;
use crate::layout::{MAX_GATES, MAX_QUBITS};
use crate::line::{record, words};
use crate::tape::{Header, Record};

/// The format in words.
pub const HELP: &str = "\
A gate list is text with one gate a line: the name, the qubits, the angles.
  # a comment ends with its line; names may be written in any case
  qubits 60            how many qubits, 0 to 128; needed; settings come first
  tolerance 1e-10      how far from Gaussian a block may be, 0 to 0.001
  limit 1073741824     most bytes of the covariance matrix (it has 32 n^2)
  relabel on           swaps rename wires (on or off)
  reorder on           another order of the wires may be taken (on or off)
  drop off             on: interactions are left out; off: they are refused
  label \"layer 1\"      a text of at most 40 characters, kept on the tape
  x 0                  also: i h y z s sdg t tdg sx sxdg
  rx 3 0.25            also: ry rz phase; radians, or a part of pi: -3*pi/8
  u 2 0.1 0.2 pi       theta, phi, lambda
  iswap 0 1            also: iswapdg swap cz cnot (control first)
  cphase 0 1 0.5       a controlled phase
  ccx 0 1 2            control, control, target
  matrix 3 1,0 0,0 0,0 0,1
                       a matrix by rows, entries `re,im`; on two qubits 16
The names id cx p cp u3 toffoli are known too. Settings that are left out
have the values shown.
";

/// A gate list that has been read.
#[derive(Debug)]
pub struct List {
    pub header: Header,
    /// Each record with its line.
    pub records: Vec<(usize, Record)>,
}

impl List {
    pub fn tape(&self) -> Vec<u8> {
        let records = self.records.iter().flat_map(|(_, r)| r.bytes());
        self.header.bytes().into_iter().chain(records).collect()
    }
}

/// A setting of the caller: name and value. It counts, whatever the list says.
pub type Setting = (String, String);

/// Reads a list. A gate too many ends the reading, so that a list takes no more room than one that can be run.
pub fn read(text: &str, settings: &[Setting]) -> Result<List, Fault> {
    if text.trim().is_empty() {
        return Err(Fault::whole("the file is empty"));
    }
    let mut made = Made { header: Header::usual(0), lines: vec![] };
    set_all(&mut made.header, settings).map_err(Fault::whole)?;
    made.lines.extend(settings.iter().map(|s| (s.0.to_ascii_lowercase(), None)));
    let (mut records, mut gates) = (vec![], 0);
    for (i, line) in text.lines().enumerate() {
        let fault = |reason| Fault { line: i + 1, reason };
        let words = words(line).map_err(fault)?;
        let Some((first, rest)) = words.split_first() else { continue };
        if made.take(i + 1, records.is_empty(), first, rest).map_err(fault)? {
            continue;
        }
        if made.line("qubits").is_none() {
            return Err(fault("a line such as `qubits 60` must come before the first gate".into()));
        }
        let record = record(first, rest, made.header.qubits).map_err(fault)?;
        gates += usize::from(matches!(record, Record::Gate { .. }));
        if gates > MAX_GATES {
            return Err(fault(format!("gate {gates} is one too many: at most {MAX_GATES}")));
        }
        records.push((i + 1, record));
    }
    if made.line("qubits").is_none() {
        return Err(Fault::whole("there is no line such as `qubits 60`"));
    }
    Ok(List { header: made.header, records })
}

/// The settings made so far, each with its line; `None` stands for the caller's.
struct Made {
    header: Header,
    lines: Vec<(String, Option<usize>)>,
}

impl Made {
    fn line(&self, name: &str) -> Option<Option<usize>> {
        self.lines.iter().find(|m| m.0 == name).map(|m| m.1)
    }

    /// Makes the setting of a line. False if the line is none.
    fn take(
        &mut self,
        line: usize,
        early: bool,
        name: &str,
        rest: &[String],
    ) -> Result<bool, String> {
        let name = name.to_ascii_lowercase();
        let mut header = self.header;
        let value = rest.first().map_or("", |w| w);
        let Some(done) = set(&mut header, &name, value) else { return Ok(false) };
        if rest.len() != 1 {
            return Err(format!("`{name}` takes one value, not {}", rest.len()));
        }
        done?;
        if !early {
            return Err(format!("`{name}` must come before the first gate and label"));
        }
        match self.line(&name) {
            Some(None) => {}
            Some(Some(at)) => return Err(format!("`{name}` stands on line {at} already")),
            None => {
                self.header = header;
                self.lines.push((name, Some(line)));
            }
        }
        Ok(true)
    }
}

/// Makes the caller's settings in a header.
pub fn set_all(header: &mut Header, settings: &[Setting]) -> Result<(), String> {
    let unknown = || Err("the settings are qubits tolerance limit relabel reorder drop".into());
    for (name, value) in settings {
        let done = set(header, name, value).unwrap_or_else(unknown);
        done.map_err(|reason| format!("--set {name}={value}: {reason}"))?;
    }
    Ok(())
}

/// Makes a setting in a header. `None` if there is none of this name.
fn set(header: &mut Header, name: &str, value: &str) -> Option<Result<(), String>> {
    Some(match name.to_ascii_lowercase().as_str() {
        "qubits" => qubits(value).map(|n| header.qubits = n),
        "tolerance" => tolerance(value).map(|t| header.tolerance = t),
        "limit" => limit(value).map(|b| header.limit = b),
        "relabel" => switch(value).map(|on| header.relabel = on),
        "reorder" => switch(value).map(|on| header.reorder = on),
        "drop" => switch(value).map(|on| header.drop = on),
        _ => return None,
    })
}

fn qubits(value: &str) -> Result<u8, String> {
    let n = value.parse().ok().filter(|n| usize::from(*n) <= MAX_QUBITS);
    let none =
        || format!("`{value}` is no number of qubits: a whole number from 0 to {MAX_QUBITS}");
    n.ok_or_else(none)
}

fn tolerance(value: &str) -> Result<f64, String> {
    let t = gates::number(value).filter(|t| (0.0..=0.001).contains(t));
    t.ok_or_else(|| format!("`{value}` is no tolerance: a number from 0 to 0.001"))
}

fn limit(value: &str) -> Result<u64, String> {
    value.parse().map_err(|_| format!("`{value}` is no number of bytes"))
}

fn switch(value: &str) -> Result<bool, String> {
    match value.to_ascii_lowercase().as_str() {
        "on" => Ok(true),
        "off" => Ok(false),
        _ => Err(format!("`{value}` is neither `on` nor `off`")),
    }
}

#[cfg(test)]
mod tests {
    use super::*;
    use crate::layout::MAX_LABEL;

    fn fault(text: &str) -> String {
        read(text, &[]).expect_err(text).to_string()
    }

    #[test]
    fn the_help_has_the_limits() {
        for text in
            [format!(" 0 to {MAX_QUBITS};"), format!("a text of at most {MAX_LABEL} characters")]
        {
            assert!(HELP.contains(&text), "{text}");
        }
    }

    #[test]
    fn settings_and_records() {
        let text = "# a list\nQUBITS 3\nreorder off # here\n\nLabel \"a # b\"\nRX 2 pi/2\ncx 0 1\n";
        let list = read(text, &[]).expect("a list");
        assert_eq!(list.header, Header { reorder: false, ..Header::usual(3) });
        let lines: Vec<_> = list.records.iter().map(|r| r.0).collect();
        assert_eq!(lines, [5, 6, 7]);
        assert_eq!(list.records[0].1, Record::Label(b"a # b".to_vec()));
        assert_eq!(list.records[2].1.text(), "cnot 0 1");
        assert_eq!(list.tape().len(), 20 + 8 + 68 + 5);
    }

    #[test]
    fn the_caller_counts() {
        let set = [("drop".into(), "on".into()), ("Qubits".into(), "5".into())];
        let list = read("qubits 3\ndrop off\nx 4\n", &set).expect("a list");
        assert!(list.header.drop && list.header.qubits == 5);
        let wrong = [("dorp".into(), "on".into())];
        assert!(read("qubits 3", &wrong)
            .expect_err("no setting")
            .reason
            .starts_with("--set dorp=on"));
    }

    #[test]
    fn faults_name_line_and_reason() {
        for (text, want) in [
            ("", "the file is empty"),
            (" \n\n", "the file is empty"),
            ("# nothing\n", "there is no line such as `qubits 60`"),
            ("x 0\n", "line 1: a line such as `qubits 60` must come before the first gate"),
            ("qubits 129\n", "line 1: `129` is no number of qubits: a whole number from 0 to 128"),
            ("qubits\n", "line 1: `qubits` takes one value, not 0"),
            ("qubits 2\nqubits 3\n", "line 2: `qubits` stands on line 1 already"),
            (
                "qubits 2\nx 0\ndrop on\n",
                "line 3: `drop` must come before the first gate and label",
            ),
            (
                "qubits 2\ntolerance nan\n",
                "line 2: `nan` is no tolerance: a number from 0 to 0.001",
            ),
            ("qubits 2\ndrop yes\n", "line 2: `yes` is neither `on` nor `off`"),
            ("qubits 2\nlimit -1\n", "line 2: `-1` is no number of bytes"),
        ] {
            assert_eq!(fault(text), want);
        }
    }

    #[test]
    fn a_gate_too_many_ends_the_reading() {
        let most = format!("qubits 1\nlabel \"a\"\n{}", "x 0\n".repeat(MAX_GATES));
        assert_eq!(read(&most, &[]).expect("a list").records.len(), MAX_GATES + 1);
        let over = format!("{most}x 0\nthis is never read\n");
        assert_eq!(fault(&over), "line 1027: gate 1025 is one too many: at most 1024");
    }
}

//! What the tool was given: a gate list or a tape, as bytes for the engine, with the line or the
//! offset of each record.

use crate::fault::Fault;
use crate::gates;
use crate::layout::{HEADER_BYTES, MAX_GATES};
use crate::list::{self, List, Setting};
use crate::tape::{record_at, Header, Record, HEADER_MARK};
use crate::text;

/// Most bytes of a list or a tape: several times what the largest gates fill, so that a file given by mistake takes no room.
pub const MOST_BYTES: usize = 4 << 20;

/// A record, its offset on the tape, and its line if it came from a list.
#[derive(Debug, PartialEq)]
pub struct Placed {
    pub offset: usize,
    pub line: Option<usize>,
    pub record: Record,
    /// Its number among the gates, from 1; 0 for a label.
    pub gate: usize,
    /// Its words on the list.
    written: Option<String>,
}

impl Placed {
    /// Where it stands, in words.
    pub fn place(&self) -> String {
        match (self.line, self.gate) {
            (Some(line), _) => format!("line {line}"),
            (None, 0) => format!("byte {}", self.offset),
            (None, gate) => format!("gate {gate} (byte {})", self.offset),
        }
    }
}

/// A list or a tape.
#[derive(Debug)]
pub struct Source {
    /// The file's name, as it was given.
    pub name: String,
    pub tape: Vec<u8>,
    /// Of a tape only as far as they are whole, and up to the first gate too many.
    pub records: Vec<Placed>,
    gates: usize,
}

impl Source {
    /// Reads the contents of a file.
    pub fn read(name: &str, contents: Vec<u8>, settings: &[Setting]) -> Result<Source, Fault> {
        if contents.len() > MOST_BYTES {
            return Err(too_big(&contents, settings));
        }
        if contents.starts_with(&HEADER_MARK) {
            return Source::from_tape(name, contents, settings);
        }
        let text = text::decode(contents)?;
        let list = list::read(&text, settings)?;
        Ok(Source::from_list(name, &list, &text))
    }

    fn empty(name: &str, tape: Vec<u8>) -> Source {
        Source { name: name.to_string(), tape, records: vec![], gates: 0 }
    }

    fn from_list(name: &str, list: &List, text: &str) -> Source {
        let mut source = Source::empty(name, list.header.bytes());
        let mut lines = (1..).zip(text.lines());
        for (line, record) in &list.records {
            let written = lines.by_ref().find(|(i, _)| i == line).map(|(_, text)| text);
            source.push(Some(*line), record.clone(), written);
            source.tape.extend(record.bytes());
        }
        source
    }

    /// A tape is kept as it is but for the caller's settings.
    fn from_tape(name: &str, tape: Vec<u8>, settings: &[Setting]) -> Result<Source, Fault> {
        let mut source = Source::empty(name, tape);
        if let Some(mut header) = Header::read(&source.tape).filter(|_| !settings.is_empty()) {
            list::set_all(&mut header, settings).map_err(Fault::whole)?;
            source.tape[..HEADER_BYTES].copy_from_slice(&header.bytes());
        }
        while source.gates <= MAX_GATES {
            let Some(record) = record_at(&source.tape, source.end()) else { break };
            source.push(None, record, None);
        }
        Ok(source)
    }

    /// Notes the record that comes next.
    fn push(&mut self, line: Option<usize>, record: Record, written: Option<&str>) {
        let is_gate = matches!(record, Record::Gate { .. });
        self.gates += usize::from(is_gate);
        let gate = if is_gate { self.gates } else { 0 };
        let written = written.filter(|_| is_gate).map(|text| {
            let words: Vec<_> = text.split('#').next().unwrap_or("").split_whitespace().collect();
            words.join(" ")
        });
        let offset = self.end();
        self.records.push(Placed { offset, line, record, gate, written });
    }

    /// Where the records end.
    pub fn end(&self) -> usize {
        let last = self.records.last();
        last.map_or(HEADER_BYTES.min(self.tape.len()), |p| p.offset + p.record.bytes().len())
    }

    pub fn header(&self) -> Option<Header> {
        Header::read(&self.tape)
    }

    pub fn gates(&self) -> usize {
        self.gates
    }

    pub fn labels(&self) -> usize {
        self.records.len() - self.gates()
    }

    /// Whether every gate is one of the bit register's, of a list or a whole tape.
    pub fn is_register(&self) -> bool {
        let register = |r: &Record| match r {
            Record::Gate { code, .. } => gates::is_register(*code),
            Record::Label(_) => true,
        };
        let whole = self.header().is_some() && self.end() == self.tape.len();
        whole && self.records.iter().all(|p| register(&p.record))
    }

    /// The record at an offset.
    pub fn at(&self, offset: u64) -> Option<&Placed> {
        self.records.iter().find(|p| p.offset as u64 == offset)
    }

    /// Gate k, from 1.
    pub fn gate(&self, k: usize) -> Option<&Placed> {
        self.records.iter().find(|p| p.gate == k && k > 0)
    }

    /// The record as it was written: the words of the list's line, or its text.
    pub fn text(&self, placed: &Placed) -> String {
        placed.written.clone().unwrap_or_else(|| placed.record.text())
    }

    /// Where the given matrices are that are not unitary, and by how much.
    pub fn not_unitary(&self) -> Vec<(&Placed, f64)> {
        let off = |p: &Placed| match &p.record {
            Record::Gate { entries, .. } => gates::off_unitary(entries),
            Record::Label(_) => 0.0,
        };
        let records = self.records.iter().map(|p| (p, off(p)));
        records.filter(|(_, off)| *off > gates::UNITARY).collect()
    }

    /// The tape of the first k gates and what stands between them.
    pub fn beginning(&self, k: usize) -> &[u8] {
        let end = self.gate(k + 1).map_or(self.end(), |p| p.offset);
        &self.tape[..end]
    }

    /// The tape as a gate list. A tape that passes questions 1 to 8 is what its list reads back to.
    pub fn dump(&self) -> Result<String, String> {
        let h =
            self.header().ok_or("no whole header: 20 bytes that begin 51 48, flags at most 7")?;
        let switch = |on| if on { "on" } else { "off" };
        let mut out =
            format!("qubits {}\ntolerance {}\nlimit {}\n", h.qubits, h.tolerance, h.limit);
        for (name, on) in [("relabel", h.relabel), ("reorder", h.reorder), ("drop", h.drop)] {
            out += &format!("{name} {}\n", switch(on));
        }
        for placed in &self.records {
            out += &placed.record.text();
            out.push('\n');
        }
        match self.end() {
            end if end == self.tape.len() => Ok(out),
            end if self.gates > MAX_GATES => Err(format!("{out}# byte {end}: gates are left out")),
            end => Err(format!("{out}# byte {end}: no whole record")),
        }
    }
}

/// What to say of a file that is too big: the first fault of its lines, such as a gate too many, if there is one.
fn too_big(contents: &[u8], settings: &[Setting]) -> Fault {
    let whole = Fault::whole(format!("the file has over {MOST_BYTES} bytes"));
    if contents.starts_with(&HEADER_MARK) {
        return whole;
    }
    let end = contents.iter().rposition(|b| *b == b'\n').unwrap_or(0);
    let text = text::decode(contents[..end].to_vec());
    match text.and_then(|text| list::read(&text, settings)) {
        Err(fault) if fault.line > 0 => fault,
        _ => whole,
    }
}

#[cfg(test)]
mod tests {
    use super::*;

    const LIST: &str =
        "qubits 3\ndrop on\nlabel \"a\"\nx 0\nlabel \"b\"\nrz 1 0.5 # turn\niswap 0 2\n";

    fn source(contents: &[u8]) -> Source {
        Source::read("f", contents.to_vec(), &[]).expect("a source")
    }

    #[test]
    fn records_have_lines_and_offsets() {
        let s = source(LIST.as_bytes());
        assert_eq!((s.gates(), s.labels()), (3, 2));
        let rz = s.gate(2).expect("a gate");
        assert_eq!((rz.offset, rz.line), (32, Some(6)));
        assert_eq!((s.text(rz), rz.place()), ("rz 1 0.5".into(), "line 6".into()));
        assert_eq!(s.at(32), Some(rz));
        assert_eq!(s.beginning(1).len(), 32);
        assert_eq!(s.beginning(3), &s.tape);
        assert!(!s.is_register());
    }

    #[test]
    fn a_dump_reads_back() {
        let s = source(LIST.as_bytes());
        let t = source(&s.tape);
        let dump = t.dump().expect("a tape");
        assert_eq!(source(dump.as_bytes()).tape, s.tape);
        assert_eq!(source(dump.as_bytes()).dump(), Ok(dump));
        assert_eq!(t.gate(3).expect("a gate").place(), "gate 3 (byte 100)");
    }

    #[test]
    fn a_tape_that_is_cut_short() {
        let s = source(LIST.as_bytes());
        let t = source(&s.tape[..s.tape.len() - 1]);
        assert!(t.dump().expect_err("cut").ends_with("# byte 100: no whole record"));
        assert!(source(b"QH").dump().is_err());
        assert!(!source(b"QH").is_register() && !t.is_register());
    }

    #[test]
    fn a_tape_with_gates_too_many_is_read_so_far() {
        let list = format!("qubits 1\n{}", "x 0\n".repeat(MAX_GATES));
        let mut tape = source(list.as_bytes()).tape;
        let gate = tape[HEADER_BYTES..HEADER_BYTES + 4].to_vec();
        tape.extend(gate.repeat(5));
        let t = source(&tape);
        assert_eq!((t.gates(), t.records.len(), t.is_register()), (1025, 1025, false));
        assert!(t.dump().expect_err("too many").ends_with("# byte 4120: gates are left out"));
    }

    #[test]
    fn a_file_given_by_mistake() {
        let big = Source::read("f", vec![b'#'; MOST_BYTES + 1], &[]).expect_err("too big");
        assert_eq!(big.to_string(), "the file has over 4194304 bytes");
        let list = format!("qubits 1\n{}", "x 0\n".repeat(MOST_BYTES / 4));
        let long = Source::read("f", list.into(), &[]).expect_err("too big");
        assert_eq!(long.to_string(), "line 1026: gate 1025 is one too many: at most 1024");
        let most = vec![b'#'; MOST_BYTES];
        assert!(Source::read("f", most, &[]).expect_err("no list").reason.starts_with("there is"));
    }

    #[test]
    fn matrices_that_are_not_unitary() {
        let text = "qubits 2\nrx 0 0.3\nmatrix 1 1,0 0,0 0,0 1.000000001,0\n\
                    matrix 0 0.6,0 0.8,0 -0.8,0 0.6,0\nmatrix 0 1,0 0,0 0,0 0.5,0\n";
        let s = source(text.as_bytes());
        let found: Vec<_> = s.not_unitary().iter().map(|(p, off)| (p.line, *off)).collect();
        assert_eq!(found[0].0, Some(3));
        assert_eq!(found[1], (Some(5), 0.75));
        assert_eq!(found.len(), 2);
    }

    #[test]
    fn settings_go_into_a_tape() {
        let set = [("drop".to_string(), "off".to_string())];
        let s = source(LIST.as_bytes());
        let t = Source::read("f", s.tape, &set).expect("a tape");
        assert_eq!(t.header().map(|h| h.drop), Some(false));
    }
}

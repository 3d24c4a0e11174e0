//! The tool as a user meets it: questions, files, and what it says of mistakes.

mod syntax;

use std::ffi::{OsStr, OsString};
use std::fs::File;
use std::io::{BufRead, BufReader, Read};
use std::os::unix::ffi::OsStringExt;
use std::path::{Path, PathBuf};
use std::process::{Command, Output, Stdio};

/// The tool, to be run in the folder of the repository.
fn tool<W: AsRef<OsStr>>(words: &[W]) -> Command {
    let root = Path::new(env!("CARGO_MANIFEST_DIR")).join("..");
    let mut tool = Command::new(env!("CARGO_BIN_EXE_jozkeral"));
    tool.args(words).current_dir(root);
    tool
}

fn run(words: &[&str]) -> Output {
    tool(words).output().expect("the tool runs")
}

fn stdout(run: &Output) -> String {
    String::from_utf8(run.stdout.clone()).expect("text")
}

fn stderr(run: &Output) -> String {
    String::from_utf8(run.stderr.clone()).expect("text")
}

/// What the tool says of an option that it does not take.
fn refused_option(words: &[&str]) -> String {
    let run = run(words);
    assert_eq!((run.status.code(), stdout(&run).as_str()), (Some(2), ""), "{words:?}");
    stderr(&run).trim_end().to_string()
}

/// A file of this test, in cargo's folder for them.
fn file(name: &str, contents: impl AsRef<[u8]>) -> PathBuf {
    let path = Path::new(env!("CARGO_TARGET_TMPDIR")).join(name);
    std::fs::write(&path, contents).expect("a file");
    path
}

fn text(path: &Path) -> &str {
    path.to_str().expect("a plain name")
}

/// The one line that the tool says of a list with a mistake, after the list's name; nothing is printed, and the status is 2.
/// With --json the line is the message, and an object is printed.
fn complaint(name: &str, contents: impl AsRef<[u8]>) -> String {
    let path = file(name, contents);
    let plain = run(&[text(&path)]);
    let said = stderr(&plain);
    assert_eq!((plain.status.code(), stdout(&plain).as_str()), (Some(2), ""), "{said}");
    assert_eq!(said.lines().count(), 1, "{said}");
    let json = run(&["--json", text(&path)]);
    assert_eq!((json.status.code(), stderr(&json)), (Some(2), said.clone()));
    let message = said.trim_end().strip_prefix("jozkeral: ").expect(&said);
    let quoted = message.replace('\\', "\\\\").replace('"', "\\\"");
    let object = stdout(&json);
    assert!(object.contains(&format!("\"message\": \"{quoted}\",\n")), "{object}");
    syntax::check(&object);
    let said = message.strip_prefix(&format!("{}: ", path.display())).expect(&said);
    let line = said
        .strip_prefix("line ")
        .map_or("null", |rest| rest.split([':', ',']).next().expect("a line"));
    assert!(object.contains(&format!("    \"line\": {line}\n  }}")), "{object}");
    said.to_string()
}

#[test]
fn mistakes_get_one_line() {
    let typo = complaint("typo", "qubits 3\nx 0\nisawp 0 1\n");
    assert_eq!(typo, "line 3: `isawp` is no gate and no setting; is `iswap` meant?");
    let angle = complaint("angle", "qubits 3\nrx 0 O.25\n");
    assert!(angle.starts_with("line 2: `O.25` is no angle"), "{angle}");
    let range = complaint("range", "qubits 3\nx 0\nlabel \"a\"\nx 7\n");
    assert!(range.starts_with("line 4, `x 7`: qubit 7 is not below 3 (refusal 6)"), "{range}");
    let far = complaint("far", "qubits 3\nx 700\n");
    assert_eq!(far, "line 2: qubit 700 is not below 3");
    let twice = complaint("twice", "qubits 3\niswap  1\t1 # no\n");
    assert!(twice.starts_with("line 2, `iswap 1 1`: a gate names the same qubit twice (refusal 7)"));
    let entry = complaint("entry", "qubits 3\nmatrix 0 3,0 0,0 0,0 1,0\n");
    assert!(entry.starts_with("line 2, `matrix 0 3,0 0,0 0,0 1,0`: an entry"), "{entry}");
    assert_eq!(complaint("empty", ""), "the file is empty");
    let escape = complaint("escape", "qubits 3\n\u{9b}2J 0\n");
    assert_eq!(escape, "line 2: `\u{FFFD}2J` is no gate and no setting");
}

#[test]
fn a_list_of_over_1024_gates_stops_early() {
    let most = format!("qubits 1\n{}", "x 0\n".repeat(1024));
    let path = file("most", &most);
    assert_eq!(run(&[text(&path)]).status.code(), Some(0));
    let many = complaint("many", format!("{most}x 0\nthis is never read\n"));
    assert_eq!(many, "line 1026: gate 1025 is one too many: at most 1024");
    let mut tape = b"QH\x01\x03\0\0\0\0\0\0\0\0\0\0\0\x40\0\0\0\0".to_vec();
    tape.extend(b"QG\x02\0".repeat(2000));
    let tape = complaint("many.tape", tape);
    assert!(tape.starts_with("gate 1025 (byte 4116), `x 0`: there are more than 1024"), "{tape}");
}

#[test]
fn an_endless_file_is_not_read() {
    let run = run(&["/dev/zero"]);
    assert_eq!(stderr(&run), "jozkeral: /dev/zero: the file has over 4194304 bytes\n");
    assert_eq!(run.status.code(), Some(2));
    let piped = "yes 'x 0' | \"$0\" --set qubits=1 -";
    let piped = Command::new("sh").args(["-c", piped, env!("CARGO_BIN_EXE_jozkeral")]).output();
    let piped = piped.expect("a shell");
    let want = "jozkeral: standard input: line 1025: gate 1025 is one too many: at most 1024\n";
    assert_eq!((stderr(&piped).as_str(), piped.status.code()), (want, Some(2)));
}

#[test]
fn encodings_and_line_ends_are_named() {
    let latin = complaint("latin", b"qubits 2\n# f\xFCr alle\n");
    let want = "line 2: byte FC is no UTF-8; the file looks like Latin-1: save it as UTF-8";
    assert_eq!(latin, want);
    let wide: Vec<u8> = "\u{FEFF}qubits 2\r\n".encode_utf16().flat_map(u16::to_le_bytes).collect();
    assert_eq!(complaint("wide", &wide), "the file is UTF-16 text; save it as UTF-8");
    assert_eq!(complaint("wide2", &wide[2..]), "the file is UTF-16 text; save it as UTF-8");
    let old = complaint("old", "qubits 2\rx 0\r");
    assert_eq!(old, "lines end with CR alone; save the file with LF or CRLF");
    let mixed = complaint("mixed", "qubits 2\n# a note\rx 0\n");
    assert_eq!(mixed, "line 2: a CR within the line; lines end with LF or CRLF");
    let neither = "neither a gate list (text) nor a tape (bytes that begin 51 48)";
    assert_eq!(complaint("bytes", [0xFF, 0x00, 0x07]), neither);
    assert_eq!(complaint("zeros", "qubits 2\n\0\nx 0\n"), neither);
    let crlf = file("crlf", "\u{FEFF}qubits 2\r\nx 0 # a note\r\n");
    assert!(stdout(&run(&[text(&crlf)])).contains("    0     0   -1\n    1     1   +1\n"));
}

#[test]
fn a_missing_file() {
    let run = run(&["no/such/list.txt"]);
    let said = String::from_utf8_lossy(&run.stderr).into_owned();
    assert!(said.starts_with("jozkeral: no/such/list.txt: cannot be read: "), "{said}");
    assert_eq!((run.status.code(), said.lines().count()), (Some(2), 1));
}

/// Names are bytes, and not always text.
#[test]
fn a_file_name_that_is_no_text() {
    let folder = Path::new(env!("CARGO_TARGET_TMPDIR"));
    let name = |bytes: &[u8]| folder.join(OsString::from_vec(bytes.to_vec()));
    let (list, tape) = (name(b"\xFF.txt"), name(b"\xFE.tape"));
    std::fs::write(&list, "qubits 1\nx 0\n").expect("a file");
    let run1 = tool(&[list.as_os_str(), OsStr::new("--tape"), tape.as_os_str()]).output();
    let run1 = run1.expect("the tool runs");
    assert!(stdout(&run1).contains("\u{FFFD}.txt: 1 qubit, 1 gate\n"), "{}", stderr(&run1));
    assert_eq!(tool(&[tape]).output().expect("the tool runs").status.code(), Some(0));
}

#[test]
fn a_file_that_begins_like_an_option() {
    let path = file("--json", "qubits 1\n");
    let folder = path.parent().expect("a folder");
    let run = tool(&["--", "--json"]).current_dir(folder).output().expect("the tool runs");
    assert!(stdout(&run).starts_with("--json: 1 qubit, 0 gates\n"), "{}", stderr(&run));
}

#[test]
fn unknown_options_are_named() {
    let no = |option: &str| format!("jozkeral: `{option}` is no option; --help lists them");
    assert_eq!(refused_option(&["examples/pair.txt", "--frob"]), no("--frob"));
    assert_eq!(refused_option(&["--frob", "3", "examples/pair.txt"]), no("--frob"));
    assert_eq!(refused_option(&["-q", "examples/pair.txt"]), no("-q"));
    let json = run(&["examples/pair.txt", "--json", "--frob"]);
    let want =
        "{\n  \"error\": {\n    \"message\": \"`--frob` is no option; --help lists them\",\n    \
                \"line\": null\n  }\n}\n";
    assert_eq!((stdout(&json).as_str(), json.status.code()), (want, Some(2)));
}

#[test]
fn the_version() {
    let run = run(&["--version"]);
    assert_eq!(stdout(&run), format!("jozkeral {}\n", env!("CARGO_PKG_VERSION")));
    assert_eq!(run.status.code(), Some(0));
}

/// The true Z is cos(1e-8), and its float is 1: no list but a register's is exact.
#[test]
fn exact_is_claimed_of_register_lists_only() {
    let near = file("near", "qubits 2\ncnot 0 1\nrx 0 1e-8\ncnot 0 1\n");
    let words = [text(&near), "--product=0", "--marginal=0=0", "--index=00"];
    let said = stdout(&run(&words));
    assert!(said.contains("    0     0   +1\n    1     1   +1\n"), "{said}");
    assert!(said.ends_with("product 0: +1\nmarginal 0=0: 1\nindex 00: 1\n"), "{said}");
    assert!(said.contains("\nresidual      0 (") && said.contains("\ntrust         rounded: "));
    let json = stdout(&run(&[&words[..], &["--json"]].concat()));
    assert_eq!((json.matches("exact").count(), json.matches("\"exact\": false").count()), (1, 1));
    assert!(!said.contains("exact"), "{said}");

    // A swap or an X as a given matrix is none of the register's gates.
    let given = file("given", "qubits 1\nmatrix 0 0,0 1,0 1,0 0,0\n");
    assert!(!stdout(&run(&[text(&given)])).contains("exact"));

    let said = stdout(&run(&["examples/register.txt"]));
    assert!(
        said.contains("\ntrust         exact: every gate is one of I X Y Z S Sdg Swap"),
        "{said}"
    );
    assert!(stdout(&run(&["examples/register.txt", "--json"])).contains("\"exact\": true"));
    let refused = run(&["examples/register.txt", "--set", "limit=0", "--json"]);
    assert!(stdout(&refused).contains("\"exact\": false"));
    assert_eq!(refused.status.code(), Some(1));
}

#[test]
fn the_legend_says_exact_of_register_lists_only() {
    let bars = |list: &str| {
        let svg = file("legend.svg", "");
        assert_eq!(run(&[list, "--svg", text(&svg)]).status.code(), Some(0));
        let drawn = std::fs::read_to_string(&svg).expect("a picture");
        assert!(drawn.contains(">exact: proved<") && drawn.contains(">rounded<"));
        let solid = "fill=\"black\" stroke=\"black\" stroke-width=\"0.8\"/>";
        drawn.lines().filter(|l| l.starts_with("<rect") && l.ends_with(solid)).count() - 1
    };
    assert_eq!(bars("examples/register.txt"), 12);
    assert_eq!(bars("examples/pair.txt"), 0);
}

#[test]
fn the_number_is_conserved_where_it_was_tested() {
    let number = |list: &str| {
        let path = file("number", format!("qubits 3\nrelabel off\ndrop on\n{list}"));
        let json = stdout(&run(&[text(&path), "--json"]));
        syntax::check(&json);
        let after = |key: &str| {
            let rest = json.split_once(&format!("\"{key}\": ")).expect(key).1;
            rest.split([',', '\n']).next().expect("a value").to_string()
        };
        let said = stdout(&run(&[text(&path)]));
        let (_, rest) = said.split_once("\nnumber        ").expect("a line");
        let more = rest.lines().skip(1).take_while(|l| l.starts_with(' ')).map(str::trim);
        let said: Vec<_> = rest.lines().take(1).chain(more).collect();
        let said = said.join(" ");
        (said, after("number_conserving"), after("number_tested"))
    };
    let is = |list: &str, said: &str, conserving: &str, tested: &str| {
        assert_eq!(number(list), (said.into(), conserving.into(), tested.into()), "{list}");
    };
    is("", "not tested: there is no block", "null", "0");
    is("iswap 0 1\nrz 2 0.3\n", "conserved by every block, within 1e-9", "true", "2");
    is("x 0\n", "not conserved by some block", "false", "1");
    is("h 0\n", "not told: bad blocks are not tested for it", "null", "null");
    is("h 0\nx 1\n", "not conserved by some block", "false", "null");
    let untested = "diagonal ones on two qubits are not";
    is("cphase 0 1 0.7\n", &format!("not tested: no block was ({untested})"), "null", "0");
    let part = format!("conserved within 1e-9 by the 1 of 2 blocks that were tested ({untested})");
    is("iswap 0 1\ncphase 1 2 0.7\n", &part, "true", "1");
}

#[test]
fn a_matrix_that_is_not_unitary_is_warned_of() {
    let list = "qubits 2\ntolerance 1e-3\nrx 0 0.3\nrx 0 -0.3\nmatrix 1 1,0 0,0 0,0 1.000001,0\n";
    let path = file("leaky", list);
    let plain = run(&[text(&path)]);
    let warning = "line 5: the matrix is not unitary (off by 2.0e-6); it is run as it is";
    assert_eq!(stderr(&plain), format!("jozkeral: {}: warning: {warning}\n", path.display()));
    assert_eq!(plain.status.code(), Some(0), "{}", stdout(&plain));
    let json = stdout(&run(&[text(&path), "--json"]));
    assert!(json.contains(&format!("\"warnings\": [\n    \"{warning}\"\n  ],")), "{json}");
    syntax::check(&json);
    let near = file("near_unitary", list.replace("1.000001", "1.0000000001"));
    assert_eq!(stderr(&run(&[text(&near)])), "");
    let many = "matrix 0 1,0 0,0 0,0 0.9999,0\n".repeat(20);
    let many = file("leaks", format!("qubits 1\ntolerance 1e-3\n{many}"));
    let said = stderr(&run(&[text(&many)]));
    assert!(said.lines().count() == 9 && said.ends_with(": more warnings: 12\n"), "{said}");
}

/// Shots are printed portion by portion: a reader that leaves ends the sampling, and without a word.
#[test]
fn a_reader_that_leaves() {
    for words in [
        &["examples/chain60.txt", "--shots=65536"][..],
        &["examples/chain60.txt", "--shots=65536", "--json"],
    ] {
        let mut child =
            tool(words).stdout(Stdio::piped()).stderr(Stdio::piped()).spawn().expect("runs");
        let mut lines = BufReader::new(child.stdout.take().expect("a pipe")).lines();
        let is_shot = |line: &String| {
            let bits = line.trim().trim_matches(['"', ',']);
            bits.len() == 60 && bits.bytes().all(|b| matches!(b, b'0' | b'1'))
        };
        assert!(lines.by_ref().map(|l| l.expect("a line")).any(|l| is_shot(&l)));
        assert_eq!(child.try_wait().expect("a child"), None);
        drop(lines);
        assert_eq!(child.wait().expect("a status").code(), Some(2));
        let mut said = String::new();
        child.stderr.take().expect("a pipe").read_to_string(&mut said).expect("text");
        assert_eq!(said, "");
    }
}

#[test]
fn a_standard_output_that_takes_nothing() {
    let closed = Command::new("sh")
        .args(["-c", "exec \"$0\" --version >&-", env!("CARGO_BIN_EXE_jozkeral")])
        .output()
        .expect("a shell");
    assert_eq!(stderr(&closed), "jozkeral: cannot print: standard output is closed\n");
    assert_eq!(closed.status.code(), Some(2));
    let into = |file: File| {
        let run = tool(&["examples/pair.txt"]).stdout(file).output().expect("the tool runs");
        assert!(stderr(&run).starts_with("jozkeral: cannot print: "), "{}", stderr(&run));
        assert_eq!((run.status.code(), stderr(&run).lines().count()), (Some(2), 1));
    };
    into(File::create("/dev/full").expect("a device"));
    into(File::open("/dev/null").expect("a device"));
}

#[test]
fn shots_have_a_limit() {
    let said = refused_option(&["examples/pair.txt", "--shots", "65537"]);
    assert!(said.starts_with("jozkeral: --shots 65537: at most 65536 at a time"), "{said}");
    let list = file("one", "qubits 1\nx 0\n");
    let most = run(&[text(&list), "--shots", "65536"]);
    assert!(stdout(&most).ends_with(&"1\n".repeat(65536)));
    let draws = file("draws_too_many", "0.5 ".repeat(65537));
    let said = refused_option(&[text(&list), "--draws", text(&draws)]);
    assert!(said.ends_with(": draws for over 65536 shots; give --shots"), "{said}");
    let some = run(&[text(&list), "--draws", text(&draws), "--shots=2"]);
    assert!(stdout(&some).ends_with("qubit 0 first\n1\n1\n"));
}

/// The register's bits: ones on qubits 3, 5, 6 and 10.
#[test]
fn questions_about_a_register() {
    let list = "examples/register.txt";
    let run = run(&[
        list,
        "--product=3,5,6",
        "--product=0,0",
        "--marginal=3=1,4=0",
        "--marginal=3=0",
        "--marginal=3=0,2=0",
        "--marginal=3=0,2=0,3=1",
        "--index=000101100010",
        "--index=000101100011",
        "--shots=3",
        "--seed=7",
    ]);
    let wanted = "\
product 3,5,6: -1
product 0,0: +1
marginal 3=1,4=0: 1
marginal 3=0: 0 (found: row 0)
marginal 3=0,2=0: 0 (found: row 2)
marginal 3=0,2=0,3=1: 0 (the list contradicts itself)
index 000101100010: 1
index 000101100011: 0

3 shots from seed 7 (splitmix64), qubit 0 first
000101100010
000101100010
000101100010
";
    let said = stdout(&run);
    assert!(said.ends_with(wanted), "{said}");
    assert_eq!(run.status.code(), Some(0));
}

/// The zeros of examples/zeros.out for programs and on the sheet.
#[test]
fn where_zeros_come_from() {
    let svg = file("zeros.svg", "");
    let list = ["examples/zeros.txt", "--json", "--svg", text(&svg)];
    let asked = [
        "--product=0,2",
        "--product=0,1",
        "--marginal=0=1,1=1",
        "--marginal=2=1,3=1",
        "--marginal=0=1,0=0",
        "--index=1100",
    ];
    let said = stdout(&run(&[&list[..], &asked].concat()));
    syntax::check(&said);
    let found = |row: usize| format!("\"row\": {row}, \"zero\": \"found\"}}");
    let no_row = |zero: &str| format!("\"row\": null, \"zero\": {zero}}}");
    let number = |asked: &str, value: &str, rest: String| {
        let part = format!("\"asked\": \"{asked}\", \"value\": {value}, {rest}");
        assert!(said.contains(&part), "{part}\n{said}");
    };
    number("0,2", "0.0", found(0));
    number("0,1", "-1.0", no_row("null"));
    number("0=1,1=1", "0.0", found(2));
    number("2=1,3=1", "0.0", no_row("\"worked out\""));
    number("0=1,0=0", "0.0", no_row("\"contradiction\""));
    assert!(said.contains("\"asked\": \"1100\", \"value\": 0.0}"), "{said}");
    let parity = format!("{{\"qubit\": 3, \"mode\": 3, \"z\": 0.0, {}", found(0));
    assert!(said.contains(&parity), "{said}");
    let drawn = std::fs::read_to_string(&svg).expect("a picture");
    assert_eq!(drawn.matches(">found: row 0</text>").count(), 4);
}

#[test]
fn questions_that_are_refused() {
    let run1 = run(&["examples/register.txt", "--product", "0,12"]);
    let said = stdout(&run1);
    assert!(said.ends_with("product 0,12: refused: qubit 12 is not below 12\n"), "{said}");
    assert_eq!(run1.status.code(), Some(1));
    let run2 = run(&["examples/register.txt", "--marginal", "0=2"]);
    assert!(stdout(&run2).ends_with("refused: bit 2 of qubit 0 is neither 0 nor 1\n"));
    let draws = file("draws", "0.5 ".repeat(11) + "1.0");
    let run3 = run(&["examples/register.txt", "--draws", text(&draws)]);
    let said = stdout(&run3);
    assert!(
        said.ends_with("qubit 0 first\nrefused: draw 12 is not from 0 and below 1\n"),
        "{said}"
    );
    assert_eq!(run3.status.code(), Some(1));
    let json = run(&["examples/register.txt", "--json", "--draws", text(&draws)]);
    assert!(stdout(&json).contains("\"shots\": [],\n  \"shots_refused\": {\n    \"refused\": 22,"));
    syntax::check(&stdout(&json));
    assert_eq!(json.status.code(), Some(1));
    let run4 = run(&["examples/register.txt", "--index", "01"]);
    assert_eq!(run4.status.code(), Some(2));
    let run5 = run(&["examples/register.txt", "--draws", text(&draws), "--shots", "2"]);
    assert!(String::from_utf8_lossy(&run5.stderr).contains("12 draws, and 2 shots need 24"));
}

/// The sum rules of probability, on a list with angles.
#[test]
fn a_marginal_and_its_parity() {
    let run = run(&["examples/chain60.txt", "--json", "--marginal=10=0", "--marginal=10=1"]);
    let said = stdout(&run);
    let after = |from: &str, key: &str| -> f64 {
        let rest = said.split_once(from).expect(from).1.split_once(key).expect(key).1;
        rest.split([',', '}']).next().expect("a number").trim().parse().expect("a number")
    };
    let z = after("\"qubit\": 10,", "\"z\": ");
    let (zero, one) = (after("\"10=0\"", "\"value\": "), after("\"10=1\"", "\"value\": "));
    assert!((zero + one - 1.0).abs() < 1e-12 && (zero - one - z).abs() < 1e-12);
}

#[test]
fn a_tape_goes_round() {
    let tape = file("chain60.tape", "");
    let first = run(&["examples/chain60.txt", "--tape", text(&tape)]);
    let second = run(&[text(&tape)]);
    let body = |run: &Output| stdout(run).split_once('\n').expect("lines").1.to_string();
    assert_eq!(body(&first), body(&second));
    let dump = file("chain60.dump", run(&[text(&tape), "--dump"]).stdout);
    let again = file("again.tape", "");
    assert_eq!(run(&[text(&dump), "--tape", text(&again)]).status.code(), Some(0));
    let bytes = |path: &Path| std::fs::read(path).expect("a tape");
    assert_eq!(bytes(&tape), bytes(&again));
}

#[test]
fn a_tape_that_is_cut_short() {
    let whole = file("whole.tape", "");
    run(&["examples/register.txt", "--tape", text(&whole)]);
    let bytes = std::fs::read(&whole).expect("a tape");
    let cut = file("cut.tape", &bytes[..bytes.len() - 1]);
    let run1 = run(&[text(&cut)]);
    let said = String::from_utf8_lossy(&run1.stderr).into_owned();
    let place = format!(": byte {}: the record is cut short", bytes.len() - 4);
    assert!(said.contains(&place) && said.lines().count() == 1, "{said}");
    assert_eq!(run1.status.code(), Some(2));
    assert_eq!(run(&[text(&cut), "--dump"]).status.code(), Some(2));
}

#[test]
fn what_to_do_about_a_refusal_helps() {
    let refused = run(&["examples/refused.txt"]);
    assert!(stdout(&refused).contains("--set drop=on"));
    assert_eq!(refused.status.code(), Some(1));
    let dropped = run(&["examples/refused.txt", "--set", "drop=on"]);
    assert!(stdout(&dropped).contains("accepted, but 1 interaction is left out"));
    assert_eq!(dropped.status.code(), Some(0));
}

#[test]
fn every_refusal_of_a_run() {
    let refused = |name: &str, list: &str, number: u8, part: &str| {
        let path = file(name, list);
        let run = run(&[text(&path)]);
        let said = stdout(&run);
        assert!(said.contains(&format!("\nrefused: number {number}\n")), "{said}");
        assert!(said.contains(part), "{part}\n{said}");
        assert_eq!(run.status.code(), Some(1));
    };
    let ring = "qubits 3\niswap 0 1\niswap 1 2\niswap 0 2\n";
    refused("ring", ring, 11, "line 4, `iswap 0 2`");
    refused("apart", "qubits 3\nreorder off\niswap 0 2\n", 11, "--set reorder=on");
    refused("h", "qubits 3\nx 1\nh 0\n", 12, "line 3, `h 0`");
    refused("cz", "qubits 2\nrelabel off\ncz 0 1\n", 13, "line 3, `cz 0 1`");
    refused("limit", "qubits 2\nlimit 127\n", 14, "needs 128 bytes, and the limit is 127");
}

#[test]
fn a_picture() {
    let svg = file("sheet.svg", "");
    let run = run(&["examples/chain60.txt", "--svg", text(&svg)]);
    assert_eq!(run.status.code(), Some(0));
    let drawn = std::fs::read_to_string(&svg).expect("a picture");
    assert!(drawn.starts_with("<svg ") && drawn.ends_with("</svg>\n"));
    assert!(drawn.contains("60 qubits, 968 gates"));
}

#[test]
fn json_is_well_formed() {
    for words in [
        &["examples/chain60.txt", "--product=3,4"][..],
        &["examples/register.txt", "--shots=130", "--index=000101100010", "--product=99"],
        &["examples/register.txt", "--shots=0"],
        &["examples/register.txt", "--marginal=3=0,2=0", "--marginal=0=0,0=1"],
        &["examples/refused.txt"],
        &["examples/refused.txt", "--set", "drop=on"],
        &["no/such/list.txt"],
    ] {
        let run = run(&[words, &["--json"]].concat());
        assert!(stdout(&run).starts_with("{\n  \"error\": "));
        syntax::check(&stdout(&run));
    }
}

#[test]
fn help_is_there() {
    let run = run(&["--help"]);
    assert!(stdout(&run).contains("jozkeral examples/chain60.txt"));
    assert_eq!(run.status.code(), Some(0));
}

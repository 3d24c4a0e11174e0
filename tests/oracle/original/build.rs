//! Writes the module tree of the original engine into OUT_DIR. The files are
//! compiled where they stand, below the folder that QSIM_SRC names; none is
//! copied into this repository. The tree `access` holds the same text with an
//! access module after the last line, `traced` that one with a line of `fuse`
//! changed and one of `pfaffian`, `given` that with other gates, and `faulty` has a tree for each
//! fault of the table below (see docs/TESTING.md).

use std::path::{Path, PathBuf};
use std::{env, fs};

const GATE: &str = "src/gate.rs";
const CIRCUIT: &str = "src/circuit.rs";
const DETECT: &str = "src/engines/gaussian/detect.rs";
const STATE: &str = "src/engines/gaussian/state.rs";

/// Where `fuse` classifies a cut, and the call that notes it.
const TRACE: (&str, &str) = ("let cl = classify2(&u, opts);", "let cl = access::note(&u, opts);");

/// Where `pfaffian` stops, and there the call that notes the row.
const STOP: (&str, &str) =
    ("if best == 0.0 {", "if best == 0.0 {\n            access::stopped(k);");

/// The lines that name circuits and gates, and those that name ones with given matrices.
const GIVEN: [(&str, &str); 2] = [
    ("use crate::circuit::Circuit;", "use crate::given_gates::{Circuit, Gate};"),
    (
        "use crate::gate::{mat4_swap_qubits, Gate, Mat2, Mat4};",
        "use crate::gate::{mat4_swap_qubits, Mat2, Mat4};",
    ),
];

/// Faults that the list `ties` must show: a name, a place of `fuse`, what stands there instead.
const FAULTS: [(&str, &str, &str); 8] = [
    ("last_of_equals", "score.2 < s.2", "score.2 <= s.2"),
    ("taken_uncounted", "ka + kb", "0"),
    (
        "second_tail_outside",
        "for &(ka, ref ma) in &pa {\n                    for &(kb, ref mb) in &pb {",
        "for &(kb, ref mb) in &pb {\n                    for &(ka, ref ma) in &pa {",
    ),
    ("window_of_7", "const CUT_WINDOW: usize = 8;", "const CUT_WINDOW: usize = 7;"),
    ("window_of_9", "const CUT_WINDOW: usize = 8;", "const CUT_WINDOW: usize = 9;"),
    ("every_cut_tried", "k < CUT_WINDOW", "k < len"),
    (
        "runs_merged_in_joins",
        "let t = kron(&time_product(&tail[ta])",
        "tail[ta] = compress(tail[ta].clone()); let t = kron(&time_product(&tail[ta])",
    ),
    (
        "opaque_leaves_rest",
        "items.push(Item::Opaque);",
        "items.push(Item::Opaque); access::left_behind(raw, &mut segs);",
    ),
];

fn main() {
    println!("cargo:rerun-if-env-changed=QSIM_SRC");
    let root = env::var("QSIM_SRC")
        .expect("QSIM_SRC must name the folder of the original engine (it holds src/gate.rs)");
    let root = fs::canonicalize(&root).unwrap_or_else(|e| panic!("QSIM_SRC = {root}: {e}"));
    let out = PathBuf::from(env::var("OUT_DIR").expect("OUT_DIR"));
    let gate = source(&root, GATE);
    let circuit = source(&root, CIRCUIT);
    let detect = source(&root, DETECT);
    let state = source(&root, STATE);
    let detect_access = with_access(&detect, "src/access_detect.rs", &out.join("detect.rs"));
    let state_access = with_access(&state, "src/access_state.rs", &out.join("state.rs"));
    let detect_traced = changed(&detect_access, &[TRACE], &out.join("detect_traced.rs"));
    let state_traced = changed(&state_access, &[STOP], &out.join("state_traced.rs"));
    let detect_given = changed(&detect_traced, &GIVEN, &out.join("detect_given.rs"));
    let tree = format!(
        "#[path = {gate:?}] pub mod gate;\n\
         #[path = {circuit:?}] pub mod circuit;\n\
         pub mod engines {{ pub mod gaussian {{\n{}}} }}\n\
         pub mod access {{\n{}}}\n\
         pub mod traced {{\n{}}}\n\
         #[path = {detect_given:?}] pub mod given;\n\
         pub mod faulty {{\n{}}}\n",
        gaussian(&detect, &state),
        gaussian(&detect_access, &state_access),
        gaussian(&detect_traced, &state_traced),
        faulty(&detect_given, &out),
    );
    write(&out.join("tree.rs"), &tree);
}

/// The path of a file of the original.
fn source(root: &Path, name: &str) -> PathBuf {
    let path = root.join(name);
    println!("cargo:rerun-if-changed={}", path.display());
    assert!(
        path.is_file(),
        "{} is missing: QSIM_SRC must name the folder that holds {name}",
        path.display()
    );
    path
}

/// The text of a module `gaussian` with its two files.
fn gaussian(detect: &Path, state: &Path) -> String {
    format!(
        "#[path = {detect:?}] pub mod detect;\n\
         #[path = {state:?}] pub mod state;\n\
         pub use detect::InteractionPhase;\n"
    )
}

/// Writes the original's text, no line changed, and after it the access module.
fn with_access(original: &Path, access: &str, to: &Path) -> PathBuf {
    println!("cargo:rerun-if-changed={access}");
    write(to, &format!("{}\n{}", read(original), read(Path::new(access))));
    to.to_path_buf()
}

/// Writes the text of a file with places of it changed; each is there once.
fn changed(from: &Path, places: &[(&str, &str)], to: &Path) -> PathBuf {
    let mut text = read(from);
    for &(old, new) in places {
        assert_eq!(text.matches(old).count(), 1, "the original has `{old}` once");
        text = text.replace(old, new);
    }
    write(to, &text);
    to.to_path_buf()
}

/// A module for each fault, and the table of their functions `fused`.
fn faulty(given: &Path, out: &Path) -> String {
    let (mut modules, mut rows) = (String::new(), String::new());
    for (name, old, new) in FAULTS {
        let path = changed(given, &[(old, new)], &out.join(format!("{name}.rs")));
        modules += &format!("#[path = {path:?}] pub mod {name};\n");
        rows += &format!("({name:?}, {name}::access::fused),\n");
    }
    let count = FAULTS.len();
    format!("{modules}pub const ALL: [(&str, crate::given_gates::Fuse); {count}] = [\n{rows}];\n")
}

fn read(path: &Path) -> String {
    fs::read_to_string(path).unwrap_or_else(|e| panic!("{}: {e}", path.display()))
}

fn write(path: &Path, text: &str) {
    fs::write(path, text).unwrap_or_else(|e| panic!("{}: {e}", path.display()));
}

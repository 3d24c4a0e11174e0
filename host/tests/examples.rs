//! The examples print what is stored beside them.

use std::path::Path;
use std::process::Command;

/// Runs the tool in the folder of the repository and compares with a stored output.
fn check(words: &[&str], stored: &str, status: i32) {
    let root = Path::new(env!("CARGO_MANIFEST_DIR")).join("..");
    let run = Command::new(env!("CARGO_BIN_EXE_jozkeral")).args(words).current_dir(&root).output();
    let run = run.expect("the tool runs");
    let wanted = std::fs::read_to_string(root.join(stored)).expect(stored);
    assert_eq!(String::from_utf8_lossy(&run.stdout), wanted, "{words:?}");
    assert_eq!(String::from_utf8_lossy(&run.stderr), "", "{words:?}");
    assert_eq!(run.status.code(), Some(status), "{words:?}");
}

#[test]
fn chain60() {
    check(&["examples/chain60.txt"], "examples/chain60.out", 0);
}

#[test]
fn register() {
    check(&["examples/register.txt"], "examples/register.out", 0);
}

#[test]
fn refused() {
    check(&["examples/refused.txt"], "examples/refused.out", 1);
}

#[test]
fn pair() {
    let words = ["examples/pair.txt", "--product", "0,2", "--shots", "4", "--seed", "7"];
    check(&words, "examples/pair.out", 0);
}

/// A zero that was found, one that was worked out, and one that is neither.
#[test]
fn zeros() {
    let product = ["--product", "0,2"];
    let marginals = ["--marginal=0=1,1=1", "--marginal=2=1,3=1", "--marginal=0=1,0=0"];
    let words = [&["examples/zeros.txt"][..], &product, &marginals].concat();
    check(&words, "examples/zeros.out", 0);
}

/// The worked example of the README is this list with this output.
#[test]
fn the_readme_shows_the_pair() {
    let root = Path::new(env!("CARGO_MANIFEST_DIR")).join("..");
    let text = |name: &str| std::fs::read_to_string(root.join(name)).expect(name);
    let readme = text("README.md");
    for name in ["examples/pair.txt", "examples/pair.out"] {
        assert!(readme.contains(&format!("```\n{}```\n", text(name))), "{name}");
    }
    assert!(readme.contains("./jozkeral examples/pair.txt --product 0,2 --shots 4 --seed 7"));
}

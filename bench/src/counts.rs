//! Instructions of every piece beside the recorded ones.

use crate::callgrind::count;
use crate::pieces::{calls, leaves, tapes};
use crate::rows::{head, Row};
use oracle::rng::Rng;

/// A count of the port may be so many times the recorded one.
const MOST: f64 = 1.05;

/// Counts every piece that is timed, on the same inputs.
pub fn pieces(seed: u64) {
    let rng = || Rng::new(seed);
    let small = &mut rng();
    leaves::pieces(small, &mut count);
    calls::pieces(small, &mut count);
    tapes::compiles(&mut rng(), "", &mut count);
    tapes::runs(&mut rng(), &mut count);
}

/// The rows with that of one cut, which is no piece of its own.
pub fn all(mut rows: Vec<Row>) -> Vec<Row> {
    rows.extend(tapes::one_cut(&rows));
    rows
}

/// Prints the table; whether no count of the port is too far above the recorded one, which are told.
pub fn gate(rows: &[Row], recorded: &[Row]) -> bool {
    head("piece", "instr.");
    rows.iter().for_each(Row::print);
    let mut well = true;
    for row in rows {
        let now = row.sides[1];
        match recorded.iter().find(|old| old.name == row.name).map(|old| old.sides[1]) {
            Some(old) if now <= MOST * old => continue,
            Some(old) => println!("{}: {now:.1}, recorded {old:.1}", row.name),
            None => println!("{}: {now:.1}, not recorded", row.name),
        }
        well = false;
    }
    let counted = |old: &&Row| !rows.iter().any(|row| row.name == old.name);
    for old in recorded.iter().filter(counted) {
        println!("{}: recorded, not counted", old.name);
        well = false;
    }
    println!("gate of {:.0} %: {}", 100.0 * (MOST - 1.0), if well { "passed" } else { "failed" });
    well
}

/// A line for each row, to be recorded.
pub fn lines(rows: &[Row]) -> String {
    let line = |Row { name, sides: [a, b] }: &Row| format!("{name:<32} {a:>14.1} {b:>14.1}\n");
    rows.iter().map(line).collect()
}

/// The recorded rows: lines with a name and two numbers; a line that begins with # says something.
pub fn recorded(text: &str) -> Vec<Row> {
    let row = |line: &str| {
        let words: Vec<&str> = line.split_whitespace().collect();
        let [name @ .., a, b] = &words[..] else { panic!("{line}: a name and two numbers") };
        let number = |word: &str| word.parse().unwrap_or_else(|_| panic!("{line}: {word}"));
        Row { name: name.join(" "), sides: [number(a), number(b)] }
    };
    text.lines().filter(|line| !line.starts_with('#')).map(row).collect()
}

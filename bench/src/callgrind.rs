//! Instructions of a pass, counted by callgrind. The program asks it to start, to write what it counted, and to stop, by a sequence
//! of instructions that does nothing elsewhere (valgrind.h and callgrind.h have the numbers).

use crate::pieces::{Pass, Piece};
use crate::rows::Row;
use std::arch::asm;
use std::ffi::CString;

const RUNNING_ON_VALGRIND: usize = 0x1001;
const CALLGRIND: usize = 0x4354_0000;
const ZERO_STATS: usize = CALLGRIND + 1;
const DUMP_STATS_AT: usize = CALLGRIND + 3;
const START_INSTRUMENTATION: usize = CALLGRIND + 4;
const STOP_INSTRUMENTATION: usize = CALLGRIND + 5;

fn request(number: usize, argument: usize) -> usize {
    let words = [number, argument, 0, 0, 0, 0];
    let mut answer = 0;
    // SAFETY: the rotations leave rdi as it was; valgrind reads the words and writes rdx.
    unsafe {
        asm!(
            "rol rdi, 3",
            "rol rdi, 13",
            "rol rdi, 61",
            "rol rdi, 51",
            "xchg rbx, rbx",
            in("rax") words.as_ptr(),
            inout("rdx") answer,
            options(nostack)
        );
    }
    answer
}

/// Whether somebody counts.
pub fn present() -> bool {
    request(RUNNING_ON_VALGRIND, 0) > 0
}

/// Counts one pass of each side, after one that is not counted.
pub fn count(piece: Piece) {
    let Piece { name, calls, original, port } = piece;
    one(&format!("original {calls} {name}"), original);
    one(&format!("port {calls} {name}"), port);
}

/// The dump comes first: what was counted is lost when the counting stops.
fn one(title: &str, pass: Pass) {
    let title = CString::new(title).expect("no zero byte");
    pass();
    request(START_INSTRUMENTATION, 0);
    request(ZERO_STATS, 0);
    pass();
    request(DUMP_STATS_AT, title.as_ptr() as usize);
    request(STOP_INSTRUMENTATION, 0);
}

/// What stands before a title, and before the instructions counted.
const TITLE: &str = "desc: Trigger: Client Request: ";
const COUNTED: &str = "summary: ";

/// The counts of a file that callgrind wrote, for one call. Each piece has two titles, the original's first.
pub fn read(text: &str) -> Vec<Row> {
    let titles = text.lines().filter_map(|line| line.strip_prefix(TITLE));
    let counts = text.lines().filter_map(|line| line.strip_prefix(COUNTED));
    let parts: Vec<(&str, f64)> =
        titles.zip(counts.map(|n| n.trim().parse().expect("a number"))).collect();
    let row = |pair: &[(&str, f64)]| {
        let words: Vec<&str> = pair[0].0.splitn(3, ' ').collect();
        let [side, calls, name] = words[..] else { panic!("a title of three parts") };
        assert_eq!((side, pair[1].0), ("original", &*format!("port {calls} {name}")));
        Row::of(name, calls.parse().expect("a number"), [pair[0].1, pair[1].1])
    };
    parts.chunks_exact(2).map(row).collect()
}

//! Standard output: written past Rust's own, which takes a descriptor that cannot be written for one that can.

use std::fs::File;
use std::io;
use std::os::fd::AsFd;
use std::sync::atomic::{AtomicBool, Ordering};

/// Standard output as a file, or why there is none.
pub fn open() -> io::Result<File> {
    if CLOSED.load(Ordering::Relaxed) {
        return Err(io::Error::other("standard output is closed"));
    }
    io::stdout().as_fd().try_clone_to_owned().map(File::from)
}

static CLOSED: AtomicBool = AtomicBool::new(false);

/// Asks whether standard output is closed as the C library starts: before `main` Rust puts /dev/null in its place.
#[used]
#[link_section = ".init_array"]
static LOOK: extern "C" fn() = look;

extern "C" fn look() {
    const STANDARD_OUTPUT: i32 = 1;
    const GET_FLAGS: i32 = 1;
    // SAFETY: this command of `fcntl` only reads, whatever the descriptor.
    let flags = unsafe { fcntl(STANDARD_OUTPUT, GET_FLAGS) };
    CLOSED.store(flags < 0, Ordering::Relaxed);
}

extern "C" {
    fn fcntl(descriptor: i32, command: i32, ...) -> i32;
}

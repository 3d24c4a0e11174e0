//! What is wrong with a list, a tape or a file of draws.

use std::fmt;

/// The reason, and the line that it is about (from 1; 0 is the file as a whole).
#[derive(Debug, PartialEq)]
pub struct Fault {
    pub line: usize,
    pub reason: String,
}

impl Fault {
    /// Of the file as a whole.
    pub fn whole(reason: impl Into<String>) -> Fault {
        Fault { line: 0, reason: reason.into() }
    }
}

impl fmt::Display for Fault {
    fn fmt(&self, f: &mut fmt::Formatter) -> fmt::Result {
        match self.line {
            0 => write!(f, "{}", self.reason),
            line => write!(f, "line {line}: {}", self.reason),
        }
    }
}

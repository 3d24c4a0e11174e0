//! Where a zero comes from: a parity, a product or a marginal that is 0 was found, or was worked out, or its list had to be
//! read only.

use crate::engine::Number;
use std::fmt;

#[derive(Clone, Copy, Debug, PartialEq, Eq)]
pub enum Zero {
    /// The search for a pivot met nothing but zeros in this row.
    Found(usize),
    /// The arithmetic came to it.
    WorkedOut,
    /// The list of a marginal contradicts itself.
    Contradiction,
}

impl Zero {
    /// That of a number which the engine had to work for, if it is zero.
    pub fn of(number: Number) -> Option<Zero> {
        (number.value == 0.0).then(|| number.row.map_or(Zero::WorkedOut, Zero::Found))
    }

    /// The word for it.
    pub fn word(self) -> &'static str {
        match self {
            Zero::Found(_) => "found",
            Zero::WorkedOut => "worked out",
            Zero::Contradiction => "contradiction",
        }
    }
}

/// In full.
impl fmt::Display for Zero {
    fn fmt(&self, f: &mut fmt::Formatter) -> fmt::Result {
        match self {
            Zero::Found(row) => write!(f, "{}: row {row}", self.word()),
            Zero::WorkedOut => f.write_str(self.word()),
            Zero::Contradiction => f.write_str("the list contradicts itself"),
        }
    }
}

#[cfg(test)]
mod tests {
    use super::*;

    #[test]
    fn a_zero_is_found_or_worked_out() {
        let said = |value, row| Zero::of(Number { value, row }).map(|zero| zero.to_string());
        assert_eq!(said(0.0, Some(0)).as_deref(), Some("found: row 0"));
        assert_eq!(said(0.0, Some(14)).as_deref(), Some("found: row 14"));
        assert_eq!(said(0.0, None).as_deref(), Some("worked out"));
        assert_eq!(said(-0.0, None).as_deref(), Some("worked out"));
        for value in [f64::NAN, f64::MIN_POSITIVE, -5e-324, 1.0] {
            assert_eq!(said(value, None), None);
        }
    }
}

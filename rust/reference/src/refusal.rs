//! A refusal: its number, and the line of a list that it speaks of.

use std::fmt;

/// Why a call does not do its work.
#[derive(Clone, Copy, Debug, PartialEq, Eq)]
pub struct Refusal {
    /// The refusal's number.
    pub number: u8,
    /// The line, from 1, if a line is refused, else 0.
    pub line: u64,
}

impl Refusal {
    /// A refusal that speaks of no line.
    pub const fn of_all(number: u8) -> Refusal {
        Refusal { number, line: 0 }
    }
}

/// The line that a program prints, without its newline.
impl fmt::Display for Refusal {
    fn fmt(&self, out: &mut fmt::Formatter<'_>) -> fmt::Result {
        write!(out, "refused={} line={}", self.number, self.line)
    }
}

//! Why a call refuses: document 01's fourteen refusals.

use std::error::Error;
use std::fmt;

use crate::{MAX_LIST_BYTES, MAX_ROWS, ROW_BYTES};

/// A call's refusal. The filler gives 1 to 8, those of a line with the line, counted from 1; the calls over a trace give
/// the others. Of several that apply, the one with the lowest number is given, where a line's refusal comes before those
/// of later lines.
///
/// ```
/// use mxp::Refusal;
///
/// let list = b"cn=1 op=59 at1=0 len1=0 at2=0 len2=0\ncn=1 op=5A at1=0 len1=0 at2=0 len2=0\n";
/// let refusal = mxp::fill(list, 1, &mut []).unwrap_err();
/// assert_eq!(refusal, Refusal::NotOfForm { line: 2 });
/// assert_eq!((refusal.number(), refusal.line()), (3, Some(2)));
/// assert_eq!(refusal.to_string(), "line 2 of the list is not of the form");
/// ```
#[derive(Clone, Copy, Debug, PartialEq, Eq, Hash)]
pub enum Refusal {
    /// 1: the list has more than [`MAX_LIST_BYTES`].
    ListTooLong,
    /// 2: a trace was asked for that has no empty row.
    NoEmptyRow,
    /// 3: a line is not of the form that document 01 gives.
    NotOfForm {
        /// The line, from 1.
        line: usize,
    },
    /// 4: a line's cn is 0.
    CnZero {
        /// The line, from 1.
        line: usize,
    },
    /// 5: a line's opcode is not in the table.
    OpcodeNotListed {
        /// The line, from 1.
        line: usize,
    },
    /// 6: a field that a line's opcode has no use for is not 0.
    UnusedField {
        /// The line, from 1.
        line: usize,
    },
    /// 7: the trace of the list would have more than [`MAX_ROWS`].
    FillTooLong,
    /// 8: the buffer is too short for the trace of the list.
    BufferShort,
    /// 9: the trace's length is 0 or no multiple of [`ROW_BYTES`].
    TraceLength,
    /// 10: the trace has more than [`MAX_ROWS`].
    TraceTooLong,
    /// 11: the checker does not accept the trace.
    NotAccepted,
    /// 12: the trace has no instruction k.
    NoInstruction,
    /// 13: the context asked for is 0.
    ContextZero,
    /// 14: more cycles would have to be looked at than the limit allows.
    LimitTooLow,
}

impl Refusal {
    /// The refusal of a number and a line, which is 0 where the refusal has none; nothing if the two do not go together.
    pub(crate) fn new(number: u64, line: usize) -> Option<Self> {
        Some(match (number, line) {
            (1, 0) => Self::ListTooLong,
            (2, 0) => Self::NoEmptyRow,
            (3, 1..) => Self::NotOfForm { line },
            (4, 1..) => Self::CnZero { line },
            (5, 1..) => Self::OpcodeNotListed { line },
            (6, 1..) => Self::UnusedField { line },
            (7, 0) => Self::FillTooLong,
            (8, 0) => Self::BufferShort,
            (9, 0) => Self::TraceLength,
            (10, 0) => Self::TraceTooLong,
            (11, 0) => Self::NotAccepted,
            (12, 0) => Self::NoInstruction,
            (13, 0) => Self::ContextZero,
            (14, 0) => Self::LimitTooLow,
            _ => return None,
        })
    }

    /// Document 01's number for the refusal.
    pub fn number(self) -> u8 {
        match self {
            Self::ListTooLong => 1,
            Self::NoEmptyRow => 2,
            Self::NotOfForm { .. } => 3,
            Self::CnZero { .. } => 4,
            Self::OpcodeNotListed { .. } => 5,
            Self::UnusedField { .. } => 6,
            Self::FillTooLong => 7,
            Self::BufferShort => 8,
            Self::TraceLength => 9,
            Self::TraceTooLong => 10,
            Self::NotAccepted => 11,
            Self::NoInstruction => 12,
            Self::ContextZero => 13,
            Self::LimitTooLow => 14,
        }
    }

    /// The line that is refused, from 1, where the refusal is one of a line.
    pub fn line(self) -> Option<usize> {
        match self {
            Self::NotOfForm { line }
            | Self::CnZero { line }
            | Self::OpcodeNotListed { line }
            | Self::UnusedField { line } => Some(line),
            _ => None,
        }
    }
}

impl fmt::Display for Refusal {
    fn fmt(&self, f: &mut fmt::Formatter<'_>) -> fmt::Result {
        match self {
            Self::ListTooLong => write!(f, "the list has more than {MAX_LIST_BYTES} bytes"),
            Self::NoEmptyRow => write!(f, "a trace starts with at least one empty row"),
            Self::NotOfForm { line } => write!(f, "line {line} of the list is not of the form"),
            Self::CnZero { line } => write!(f, "line {line} of the list has cn 0"),
            Self::OpcodeNotListed { line } => {
                write!(f, "line {line} of the list has an opcode that is not in the table")
            }
            Self::UnusedField { line } => write!(f, "line {line} of the list has an unused field that is not 0"),
            Self::FillTooLong => write!(f, "the trace of the list would have more than {MAX_ROWS} rows"),
            Self::BufferShort => write!(f, "the buffer is too short for the trace of the list"),
            Self::TraceLength => write!(f, "the length of the trace is 0 or not a multiple of {ROW_BYTES}"),
            Self::TraceTooLong => write!(f, "the trace has more than {MAX_ROWS} rows"),
            Self::NotAccepted => write!(f, "the trace is not accepted"),
            Self::NoInstruction => write!(f, "the trace has no such instruction"),
            Self::ContextZero => write!(f, "there is no context 0"),
            Self::LimitTooLow => write!(f, "more cycles are needed than the limit allows"),
        }
    }
}

impl Error for Refusal {}

#[cfg(test)]
mod tests {
    use super::*;

    #[test]
    fn each_number_is_one_refusal_with_a_line_or_without() {
        for number in 0..=15 {
            let with_line = (3..=6).contains(&number);
            let without_line = (1..=14).contains(&number) && !with_line;
            for (line, given) in [(0, without_line), (1, with_line), (usize::MAX, with_line)] {
                let refusal = Refusal::new(number, line);
                assert_eq!(refusal.map(|refusal| u64::from(refusal.number())), given.then_some(number));
                assert_eq!(refusal.and_then(Refusal::line), (given && with_line).then_some(line));
            }
        }
    }
}

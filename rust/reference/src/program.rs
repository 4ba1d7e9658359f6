//! The programs `verify` and `account`: the checker and the filler with bounds on what they read, and their answers as
//! text.

use std::fmt;

use crate::check::{Verdict, check};
use crate::fill::{LIST_TOO_LONG, fill};
use crate::refusal::Refusal;
use crate::row::{ROW_BYTES, Row, first_rows};

/// `verify` reads at most so many bytes.
pub const MAX_TRACE_INPUT: usize = 65_436;
/// `account` reads at most so many bytes.
pub const MAX_LIST_INPUT: usize = 65_536;
/// `account` has room for so many rows.
pub const ACCOUNT_ROWS: usize = 574;
/// `account` lets so many empty rows come first.
const ACCOUNT_EMPTY_ROWS: u64 = 1;
/// Bytes of a word.
const WORD: u32 = 32;

/// What `verify` answers. More bytes than it reads are refused before anything else is looked at.
pub fn verify(input: &[u8]) -> Verdict {
    if input.len() > MAX_TRACE_INPUT { Verdict::Refused { number: 10 } } else { check(input) }
}

/// The line that `verify` prints, without its newline.
impl fmt::Display for Verdict {
    fn fmt(&self, out: &mut fmt::Formatter<'_>) -> fmt::Result {
        match *self {
            Verdict::Accepted { instructions, oob, empty } => {
                write!(out, "accepted=1 instructions={instructions} oob={oob} empty={empty}")
            }
            Verdict::Broken { row, constraint } => {
                write!(out, "accepted=0 row={row} constraint={constraint}")
            }
            Verdict::Refused { number } => Refusal::of_all(number).fmt(out),
        }
    }
}

/// What `account` says of an instruction.
#[derive(Clone, Copy, Debug, PartialEq, Eq)]
pub struct Charge {
    /// Its number.
    pub stamp: u32,
    /// Its context's number.
    pub cn: u32,
    /// Whether it is out of bounds.
    pub oob: u8,
    /// The bytes that its context has reached.
    pub size: u32,
    /// The words that these take.
    pub words: u32,
    /// What it pays.
    pub gas: u32,
}

impl Charge {
    /// What the rows of an instruction say, each of them.
    fn of_row(row: &Row) -> Charge {
        let &Row { stamp, cn, ooob: oob, memn: size, gas, .. } = row;
        Charge { stamp, cn, oob, size, words: size.div_ceil(WORD), gas }
    }
}

/// The line for an instruction, without its newline.
impl fmt::Display for Charge {
    fn fmt(&self, out: &mut fmt::Formatter<'_>) -> fmt::Result {
        let Charge { stamp, cn, oob, size, words, gas } = self;
        write!(out, "stamp={stamp} cn={cn} oob={oob} size={size} words={words} gas={gas}")
    }
}

/// What `account` answers.
#[derive(Clone, Debug, PartialEq, Eq)]
pub enum Report {
    /// The list is charged.
    Charged {
        /// Each instruction in order.
        charges: Vec<Charge>,
        /// All rows, the empty one too.
        rows: usize,
    },
    /// It is not.
    Refused(Refusal),
}

/// What `account` prints, with all newlines.
impl fmt::Display for Report {
    fn fmt(&self, out: &mut fmt::Formatter<'_>) -> fmt::Result {
        match self {
            Report::Charged { charges, rows } => {
                charges.iter().try_for_each(|charge| writeln!(out, "{charge}"))?;
                let oob = charges.iter().filter(|charge| charge.oob == 1).count();
                writeln!(out, "instructions={} oob={oob} rows={rows}", charges.len())
            }
            Report::Refused(refusal) => writeln!(out, "{refusal}"),
        }
    }
}

/// What `account` answers. More bytes than it reads are refused before anything else is looked at.
pub fn account(input: &[u8]) -> Report {
    if input.len() > MAX_LIST_INPUT {
        return Report::Refused(LIST_TOO_LONG);
    }
    let mut buffer = vec![0; ACCOUNT_ROWS * ROW_BYTES];
    match fill(input, ACCOUNT_EMPTY_ROWS, &mut buffer) {
        Ok(rows) => {
            let first_rows = first_rows(&buffer[..rows * ROW_BYTES]);
            Report::Charged { charges: first_rows.map(|row| Charge::of_row(&row)).collect(), rows }
        }
        Err(refusal) => Report::Refused(refusal),
    }
}

#[cfg(test)]
mod tests {
    use super::*;
    use crate::account_vectors::SAMPLE_REPORT;
    use crate::list_vectors::SAMPLE;

    #[test]
    fn a_line_for_each_kind_of_verdict() {
        let accepted = Verdict::Accepted { instructions: 6, oob: 1, empty: 2 };
        let broken = Verdict::Broken { row: 573, constraint: 26 };
        assert_eq!(accepted.to_string(), "accepted=1 instructions=6 oob=1 empty=2");
        assert_eq!(broken.to_string(), "accepted=0 row=573 constraint=26");
        assert_eq!(Verdict::Refused { number: 10 }.to_string(), "refused=10 line=0");
    }

    #[test]
    fn too_many_bytes_are_refused_before_part_of_a_row() {
        let input = vec![0; MAX_TRACE_INPUT + 1];
        assert_eq!(MAX_TRACE_INPUT, ACCOUNT_ROWS * ROW_BYTES);
        assert_eq!(check(&input), Verdict::Refused { number: 9 });
        assert_eq!(verify(&input), Verdict::Refused { number: 10 });
        assert_eq!(verify(&input[..MAX_TRACE_INPUT - 1]), Verdict::Refused { number: 9 });
        assert_eq!(verify(&input[..MAX_TRACE_INPUT]), Verdict::Accepted { instructions: 0, oob: 0, empty: 574 });
    }

    #[test]
    fn the_sample_of_the_document_is_charged_as_it_says() {
        assert_eq!(account(SAMPLE.as_bytes()).to_string(), SAMPLE_REPORT);
    }

    #[test]
    fn a_list_of_none_has_a_last_line_all_the_same() {
        assert_eq!(account(b"").to_string(), "instructions=0 oob=0 rows=1\n");
    }

    #[test]
    fn a_refusal_is_all_that_is_printed() {
        let cut = SAMPLE.trim_end();
        assert_eq!(account(cut.as_bytes()).to_string(), "refused=3 line=6\n");
        assert_eq!(account(SAMPLE.repeat(18).as_bytes()).to_string(), "refused=8 line=0\n");
    }

    #[test]
    fn too_many_bytes_are_refused_before_a_bad_line() {
        let input = vec![b'x'; MAX_LIST_INPUT + 1];
        assert_eq!(account(&input).to_string(), "refused=1 line=0\n");
        assert_eq!(account(&input[..MAX_LIST_INPUT]).to_string(), "refused=3 line=1\n");
    }
}

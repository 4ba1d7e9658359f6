//! The checker and what it says of a trace.

use std::fmt;

use crate::ROW_BYTES;
use crate::answer::Answer;
use crate::raw::{self, CheckAnswer};
use crate::refusal::Refusal;

/// What the checker says of a trace.
#[derive(Clone, Copy, Debug, PartialEq, Eq, Hash)]
pub enum Verdict {
    /// Every row meets every constraint.
    Accepted(Counts),
    /// A constraint is broken: in the lowest row that breaks one, the one with the lowest number.
    Broken {
        /// The row, from 0.
        row: usize,
        /// The constraint.
        constraint: Constraint,
    },
}

/// What an accepted trace holds.
#[derive(Clone, Copy, Debug, PartialEq, Eq, Hash)]
pub struct Counts {
    /// The instructions, out-of-bounds ones too.
    pub instructions: usize,
    /// The out-of-bounds instructions.
    pub out_of_bounds: usize,
    /// The empty rows, all ahead of the first instruction.
    pub empty_rows: usize,
}

/// One of document 01's constraints.
///
/// ```
/// use mxp::Constraint;
///
/// let gas = Constraint::new(17).unwrap();
/// assert_eq!(gas.number(), 17);
/// assert_eq!(gas.to_string(), "constraint 17");
/// assert_eq!((Constraint::new(0), Constraint::new(27)), (None, None));
/// ```
#[derive(Clone, Copy, Debug, PartialEq, Eq, PartialOrd, Ord, Hash)]
pub struct Constraint(u8);

impl Constraint {
    /// How many there are: they are numbered from 1 to this.
    pub const COUNT: u8 = 26;

    /// The constraint of a number, if there is one.
    pub const fn new(number: u8) -> Option<Self> {
        if 1 <= number && number <= Self::COUNT { Some(Self(number)) } else { None }
    }

    /// Document 01's number for the constraint.
    pub const fn number(self) -> u8 {
        self.0
    }
}

impl fmt::Display for Constraint {
    fn fmt(&self, f: &mut fmt::Formatter<'_>) -> fmt::Result {
        write!(f, "constraint {}", self.0)
    }
}

/// Checks a trace, whoever made it.
///
/// ```
/// use mxp::{Constraint, Counts, ROW_BYTES, Refusal, Verdict};
///
/// # let list = include_bytes!("../../../data/account/sample_of_the_document.list");
/// # let mut buffer = [0; 33 * ROW_BYTES];
/// // The trace of the six instructions of the crate's example.
/// let trace = mxp::fill(list, 1, &mut buffer)?;
/// let counts = Counts { instructions: 6, out_of_bounds: 1, empty_rows: 1 };
/// assert_eq!(mxp::check(trace)?, Verdict::Accepted(counts));
///
/// // The third instruction stands in rows 7 to 9, and the cell GAS in bytes 80 to 83 of each: one gas less than is due.
/// let mut cheap = trace.to_vec();
/// for row in 7..=9 {
///     cheap[row * ROW_BYTES + 83] -= 1;
/// }
/// let constraint = Constraint::new(17).unwrap();
/// assert_eq!(mxp::check(&cheap)?, Verdict::Broken { row: 7, constraint });
///
/// assert_eq!(mxp::check(&trace[1..]), Err(Refusal::TraceLength));
/// # Ok::<(), Refusal>(())
/// ```
///
/// # Errors
///
/// [`Refusal::TraceLength`] and [`Refusal::TraceTooLong`].
pub fn check(trace: &[u8]) -> Result<Verdict, Refusal> {
    verdict(trace, &raw::check(trace))
}

fn verdict(trace: &[u8], numbers: &CheckAnswer) -> Result<Verdict, Refusal> {
    let answer = Answer { call: "mxp_check", numbers };
    answer.not_refused(&[9, 10])?;
    let rows = trace.len() / ROW_BYTES;
    let &[_, _, _, accepted, instructions, out_of_bounds, empty_rows, row, constraint] = numbers;
    let counts = [instructions, out_of_bounds, empty_rows].map(|count| answer.narrowed(count));
    if accepted == 0 {
        let row = answer.narrowed(row);
        answer.demand(counts == [0; 3] && row < rows);
        let constraint = answer.present(Constraint::new(answer.narrowed(constraint)));
        return Ok(Verdict::Broken { row, constraint });
    }
    answer.demand(accepted == 1 && row == 0 && constraint == 0);
    answer.demand(counts.iter().all(|&count| count <= rows));
    let [instructions, out_of_bounds, empty_rows] = counts;
    Ok(Verdict::Accepted(Counts { instructions, out_of_bounds, empty_rows }))
}

#[cfg(test)]
mod tests {
    use super::*;
    use crate::answer::tests::assert_not_believed;

    const TRACE: [u8; 3 * ROW_BYTES] = [0; 3 * ROW_BYTES];

    #[test]
    fn documented_answers_are_told() {
        let counts = Counts { instructions: 3, out_of_bounds: 2, empty_rows: 1 };
        assert_eq!(verdict(&TRACE, &[0, 0, 0, 1, 3, 2, 1, 0, 0]), Ok(Verdict::Accepted(counts)));
        for number in 1..=Constraint::COUNT {
            let broken = Verdict::Broken { row: 2, constraint: Constraint(number) };
            assert_eq!(verdict(&TRACE, &[0, 0, 0, 0, 0, 0, 0, 2, number.into()]), Ok(broken));
        }
        assert_eq!(verdict(&TRACE, &[10, 0, 0, 0, 0, 0, 0, 0, 0]), Err(Refusal::TraceTooLong));
    }

    #[test]
    fn undocumented_answers_are_not_believed() {
        let outside = [
            [0, 0, 0, 2, 3, 2, 1, 0, 0],
            [0, 0, 0, 1, 4, 2, 1, 0, 0],
            [0, 0, 0, 1, 3, 4, 1, 0, 0],
            [0, 0, 0, 1, 3, 2, 4, 0, 0],
            [0, 0, 0, 1, 3, 2, 1, 1, 0],
            [0, 0, 0, 1, 3, 2, 1, 0, 1],
            [0, 0, 0, 0, 1, 0, 0, 2, 9],
            [0, 0, 0, 0, 0, 0, 0, 3, 9],
            [0, 0, 0, 0, 0, 0, 0, 2, 0],
            [0, 0, 0, 0, 0, 0, 0, 2, 27],
            [0, 0, 0, 0, 0, 0, 0, 2, 256 + 9],
            [11, 0, 0, 0, 0, 0, 0, 0, 0],
        ];
        assert_not_believed(|numbers| verdict(&TRACE, numbers), &outside);
    }
}

//! A walk over the cycles of a trace.

use std::iter::FusedIterator;

use crate::ROW_BYTES;
use crate::answer::Answer;
use crate::raw::{self, OpenAnswer, StepAnswer};
use crate::refusal::Refusal;

/// The cycles of an accepted trace, one after another, each as a part of the trace itself. [`cycles()`] makes it.
#[derive(Clone, Debug)]
pub struct Cycles<'a> {
    trace: &'a [u8],
    next_row: usize,
}

/// Walks over the cycles of a trace: the rows of its first instruction, of its second, and so on. The trace is checked
/// once, and is borrowed as long as it is walked over, so it stays as it was checked.
///
/// ```
/// use mxp::{ROW_BYTES, Refusal};
///
/// # let list = include_bytes!("../../../data/account/sample_of_the_document.list");
/// # let mut buffer = [0; 33 * ROW_BYTES];
/// // The trace of the six instructions of the crate's example.
/// let trace = mxp::fill(list, 1, &mut buffer)?;
/// for (cycle, k) in mxp::cycles(trace)?.zip(1..) {
///     assert_eq!(cycle, mxp::rows(trace, k)?);
/// }
/// assert_eq!(mxp::cycles(trace)?.last(), Some(&trace[16 * ROW_BYTES..]));
///
/// assert_eq!(mxp::cycles(&[]).unwrap_err(), Refusal::TraceLength);
/// # Ok::<(), Refusal>(())
/// ```
///
/// A cycle is a part of the trace, and cannot be kept longer than the trace is:
///
/// ```compile_fail,E0597
/// let first = {
///     let trace = [0; mxp::ROW_BYTES];
///     mxp::cycles(&trace).unwrap().next()
/// };
/// assert_eq!(first, None);
/// ```
///
/// # Errors
///
/// [`Refusal::TraceLength`], [`Refusal::TraceTooLong`] and [`Refusal::NotAccepted`].
pub fn cycles(trace: &[u8]) -> Result<Cycles<'_>, Refusal> {
    let next_row = first_row(trace, &raw::open(trace))?;
    Ok(Cycles { trace, next_row })
}

impl<'a> Iterator for Cycles<'a> {
    type Item = &'a [u8];

    fn next(&mut self) -> Option<&'a [u8]> {
        let numbers = raw::step(self.trace, self.next_row);
        let cycle = cycle_told(self.trace, self.next_row, &numbers)?;
        self.next_row += cycle.len() / ROW_BYTES;
        Some(cycle)
    }
}

// A step that gives no part does not move, so each later one gives none either.
impl FusedIterator for Cycles<'_> {}

fn first_row(trace: &[u8], numbers: &OpenAnswer) -> Result<usize, Refusal> {
    let answer = Answer { call: "mxp_open", numbers };
    answer.not_refused(&[9, 10, 11])?;
    let &[_, _, _, next] = numbers;
    let next = answer.narrowed(next);
    answer.demand(next <= trace.len() / ROW_BYTES);
    Ok(next)
}

/// The part that a step from a row gives: the rows from there on, up to the one that comes next.
fn cycle_told<'a>(trace: &'a [u8], row: usize, numbers: &StepAnswer) -> Option<&'a [u8]> {
    let answer = Answer { call: "mxp_step", numbers };
    let &[first, length, next] = numbers;
    let next: usize = answer.narrowed(next);
    if length == 0 {
        answer.demand(first == 0 && next == row);
        return None;
    }
    let part = answer.part(trace, first, length);
    answer.demand(first == (row * ROW_BYTES) as u64 && next.checked_sub(row) == Some(part.len() / ROW_BYTES));
    Some(part)
}

#[cfg(test)]
mod tests {
    use super::*;
    use crate::answer::tests::assert_not_believed;

    const TRACE: [u8; 7 * ROW_BYTES] = [0; 7 * ROW_BYTES];

    #[test]
    fn documented_answers_are_told() {
        assert_eq!(first_row(&TRACE, &[0, 0, 0, 7]), Ok(7));
        assert_eq!(first_row(&TRACE, &[11, 0, 0, 0]), Err(Refusal::NotAccepted));
        assert_eq!(cycle_told(&TRACE, 1, &[114, 342, 4]), Some(&TRACE[ROW_BYTES..4 * ROW_BYTES]));
        assert_eq!(cycle_told(&TRACE, 7, &[0, 0, 7]), None);
    }

    #[test]
    fn undocumented_answers_are_not_believed() {
        assert_not_believed(|numbers| first_row(&TRACE, numbers), &[[0, 0, 0, 8], [12, 0, 0, 0]]);
        let outside = [
            [0, 0, 2],
            [114, 0, 1],
            [0, 342, 4],
            [228, 342, 4],
            [114, 342, 5],
            [114, 342, 1],
            [114, 341, 4],
            [114, 798, 8],
        ];
        assert_not_believed(|numbers| cycle_told(&TRACE, 1, numbers), &outside);
    }
}

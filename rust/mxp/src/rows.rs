//! The rows of one instruction of a trace.

use crate::answer::Answer;
use crate::raw::{self, RowsAnswer};
use crate::refusal::Refusal;

/// The rows of instruction `k` of a trace, counted from 1, as a part of the trace itself: 3 rows, or 17 if it is out of
/// bounds. The trace is checked by each such question; [`cycles()`](crate::cycles()) checks it once for all instructions.
///
/// ```
/// use mxp::{ROW_BYTES, Refusal};
///
/// # let list = include_bytes!("../../../data/account/sample_of_the_document.list");
/// # let mut buffer = [0; 33 * ROW_BYTES];
/// // The trace of the six instructions of the crate's example.
/// let trace = mxp::fill(list, 1, &mut buffer)?;
/// assert_eq!(mxp::rows(trace, 1)?, &trace[ROW_BYTES..4 * ROW_BYTES]);
/// assert_eq!(mxp::rows(trace, 6)?, &trace[16 * ROW_BYTES..]);
/// assert_eq!(mxp::rows(trace, 0), Err(Refusal::NoInstruction));
/// # Ok::<(), Refusal>(())
/// ```
///
/// # Errors
///
/// [`Refusal::TraceLength`], [`Refusal::TraceTooLong`], [`Refusal::NotAccepted`] and [`Refusal::NoInstruction`].
pub fn rows(trace: &[u8], k: usize) -> Result<&[u8], Refusal> {
    part_told(trace, &raw::rows(trace, k))
}

fn part_told<'a>(trace: &'a [u8], numbers: &RowsAnswer) -> Result<&'a [u8], Refusal> {
    let answer = Answer { call: "mxp_rows", numbers };
    answer.not_refused(&[9, 10, 11, 12])?;
    let &[_, _, _, first, length] = numbers;
    let part = answer.part(trace, first, length);
    answer.demand(!part.is_empty());
    Ok(part)
}

#[cfg(test)]
mod tests {
    use super::*;
    use crate::ROW_BYTES;
    use crate::answer::tests::assert_not_believed;

    const TRACE: [u8; 4 * ROW_BYTES] = [0; 4 * ROW_BYTES];

    #[test]
    fn documented_answers_are_told() {
        assert_eq!(part_told(&TRACE, &[0, 0, 0, 114, 342]), Ok(&TRACE[ROW_BYTES..]));
        assert_eq!(part_told(&TRACE, &[12, 0, 0, 0, 0]), Err(Refusal::NoInstruction));
    }

    #[test]
    fn undocumented_answers_are_not_believed() {
        let outside =
            [[0, 0, 0, 115, 342], [0, 0, 0, 114, 341], [0, 0, 0, 114, 0], [0, 0, 0, u64::MAX, 114], [14, 0, 0, 0, 0]];
        assert_not_believed(|numbers| part_told(&TRACE, numbers), &outside);
    }
}

//! The filler: the trace of a list.

use crate::ROW_BYTES;
use crate::answer::Answer;
use crate::raw::{self, FillAnswer};
use crate::refusal::Refusal;

/// Fills a buffer with the trace of a list: so many empty rows, then 3 rows for each instruction, or 17 if it is out of
/// bounds. Gives the trace, which is the front of the buffer; the bytes behind it stay, and on a refusal all of them.
///
/// [`MAX_ROWS`](crate::MAX_ROWS) rows are always enough room.
///
/// ```
/// use mxp::{ROW_BYTES, Refusal};
///
/// let list = b"cn=1 op=52 at1=0 len1=0 at2=0 len2=0\n";
/// let mut buffer = [0xaa; 5 * ROW_BYTES];
/// let trace = mxp::fill(list, 1, &mut buffer)?;
/// assert_eq!(trace.len(), 4 * ROW_BYTES);
/// assert_eq!(trace[..ROW_BYTES], [0; ROW_BYTES]);
/// assert_eq!(buffer[4 * ROW_BYTES..], [0xaa; ROW_BYTES]);
///
/// assert_eq!(mxp::fill(list, 1, &mut buffer[..100]), Err(Refusal::BufferShort));
/// # Ok::<(), Refusal>(())
/// ```
///
/// While the trace is in use its buffer cannot change:
///
/// ```compile_fail,E0506
/// let mut buffer = [0; mxp::ROW_BYTES];
/// let trace = mxp::fill(b"", 1, &mut buffer).unwrap();
/// buffer[0] = 1;
/// assert_eq!(trace.len(), mxp::ROW_BYTES);
/// ```
///
/// # Errors
///
/// [`Refusal`] 1 to 8, from [`Refusal::ListTooLong`] to [`Refusal::BufferShort`].
pub fn fill<'a>(list: &[u8], empty_rows: usize, buffer: &'a mut [u8]) -> Result<&'a [u8], Refusal> {
    let numbers = raw::fill(list, empty_rows, buffer);
    trace_told(buffer, &numbers)
}

fn trace_told<'a>(buffer: &'a [u8], numbers: &FillAnswer) -> Result<&'a [u8], Refusal> {
    let answer = Answer { call: "mxp_fill", numbers };
    answer.not_refused(&[1, 2, 3, 4, 5, 6, 7, 8])?;
    let &[_, _, _, rows] = numbers;
    let length = answer.present(rows.checked_mul(ROW_BYTES as u64));
    Ok(answer.part(buffer, 0, length))
}

#[cfg(test)]
mod tests {
    use super::*;
    use crate::answer::tests::assert_not_believed;

    const BUFFER: [u8; 4 * ROW_BYTES] = [0; 4 * ROW_BYTES];

    #[test]
    fn documented_answers_are_told() {
        assert_eq!(trace_told(&BUFFER, &[0, 0, 0, 4]), Ok(&BUFFER[..]));
        assert_eq!(trace_told(&BUFFER, &[6, 5, 0, 0]), Err(Refusal::UnusedField { line: 5 }));
    }

    #[test]
    fn undocumented_answers_are_not_believed() {
        assert_not_believed(|numbers| trace_told(&BUFFER, numbers), &[[0, 0, 0, 5], [0, 0, 0, 1 << 63], [9, 0, 0, 0]]);
    }
}

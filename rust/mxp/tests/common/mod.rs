//! What the tests share: document 01's example as a list and as a trace, and traces of other lists.

use mxp::ROW_BYTES;

/// The six instructions of document 01's example.
pub const LIST: &[u8] = include_bytes!("../../../../data/account/sample_of_the_document.list");

/// The trace of [`LIST`] after one empty row, as the reference makes it.
pub const TRACE: &[u8] = include_bytes!("../../../../data/verify/accepted_sample_of_the_document.trace");

/// The most rows of one instruction.
const CYCLE_ROWS: usize = 17;

/// The trace of a list that is not refused.
pub fn trace_of(list: &[u8], empty_rows: usize) -> Vec<u8> {
    let lines = list.iter().filter(|&&byte| byte == b'\n').count();
    let mut buffer = vec![0; (empty_rows + lines * CYCLE_ROWS) * ROW_BYTES];
    mxp::fill(list, empty_rows, &mut buffer).expect("the list is not refused").to_vec()
}

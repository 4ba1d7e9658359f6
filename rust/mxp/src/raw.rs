//! The library's calls as they are, in numbers, for those who compare or measure the library itself: `include/mxp.h`
//! says the same for C. All of the crate's unsafe code stands here.

#![allow(unsafe_code)]

/// Refused, line, column, accepted, instructions, oob, empty, row, constraint; what is not meant is 0, and so is the
/// column of every answer.
pub type CheckAnswer = [u64; 9];

/// Refused, line, column, rows; what is not meant is 0.
pub type FillAnswer = [u64; 4];

/// Refused, line, column, first byte of the part, its length; what is not meant is 0.
pub type RowsAnswer = [u64; 5];

/// Refused, line, column, cn; end 1 and end 2, each as its top byte and two halves. What is not meant is 0.
pub type ClaimAnswer = [u64; 10];

/// Refused, line, column, mem, cost, looked; what is not meant is 0.
pub type StateAnswer = [u64; 6];

/// Refused, line, column, next row; what is not meant is 0.
pub type OpenAnswer = [u64; 4];

/// First byte of the part, its length, next row; an empty part is 0, 0.
pub type StepAnswer = [u64; 3];

unsafe extern "C" {
    /// Checks a trace.
    pub fn mxp_check(trace: *const u8, trace_len: usize, out: *mut CheckAnswer);
    /// Fills a buffer with the trace of a list after so many empty rows.
    pub fn mxp_fill(
        list: *const u8,
        list_len: usize,
        empty: u64,
        buffer: *mut u8,
        buffer_len: usize,
        out: *mut FillAnswer,
    );
    /// Where the rows of instruction k stand.
    pub fn mxp_rows(trace: *const u8, trace_len: usize, k: u64, out: *mut RowsAnswer);
    /// The claim of instruction k.
    pub fn mxp_claim(trace: *const u8, trace_len: usize, k: u64, out: *mut ClaimAnswer);
    /// The last state of a context, with a look at no more than so many cycles.
    pub fn mxp_last_state(trace: *const u8, trace_len: usize, cn: u32, limit: u64, out: *mut StateAnswer);
    /// Opens a walk over a trace.
    pub fn mxp_open(trace: *const u8, trace_len: usize, out: *mut OpenAnswer);
    /// One step of a walk over any bytes, from any row.
    pub fn mxp_step(trace: *const u8, trace_len: usize, next: u64, out: *mut StepAnswer);
}

// The calls on slices are sound for the same reasons. A pointer and a length are those of one slice, and the room for the
// answer is a local array of the answer's type; all outlive the call. The library reads within what it is lent, writes
// to the filler's buffer and to the answer alone, and keeps nothing: that is proved of it.

/// What an answer's room holds before the call, so that a number that is not written is not taken for a 0.
const UNWRITTEN: u64 = u64::MAX;

/// [`mxp_check`] on a slice.
pub(crate) fn check(trace: &[u8]) -> CheckAnswer {
    // SAFETY: the slice and the room are as said above.
    answer_of(|out| unsafe { mxp_check(trace.as_ptr(), trace.len(), out) })
}

/// [`mxp_fill`] on slices.
pub(crate) fn fill(list: &[u8], empty_rows: usize, buffer: &mut [u8]) -> FillAnswer {
    let (room, bytes) = (buffer.as_mut_ptr(), buffer.len());
    // SAFETY: the slices and the room are as said above, and the buffer, lent alone, overlaps neither.
    answer_of(|out| unsafe { mxp_fill(list.as_ptr(), list.len(), empty_rows as u64, room, bytes, out) })
}

/// [`mxp_rows`] on a slice.
pub(crate) fn rows(trace: &[u8], k: usize) -> RowsAnswer {
    // SAFETY: the slice and the room are as said above.
    answer_of(|out| unsafe { mxp_rows(trace.as_ptr(), trace.len(), k as u64, out) })
}

/// [`mxp_claim`] on a slice.
pub(crate) fn claim(trace: &[u8], k: usize) -> ClaimAnswer {
    // SAFETY: the slice and the room are as said above.
    answer_of(|out| unsafe { mxp_claim(trace.as_ptr(), trace.len(), k as u64, out) })
}

/// [`mxp_last_state`] on a slice.
pub(crate) fn last_state(trace: &[u8], context: u32, limit: usize) -> StateAnswer {
    // SAFETY: the slice and the room are as said above.
    answer_of(|out| unsafe { mxp_last_state(trace.as_ptr(), trace.len(), context, limit as u64, out) })
}

/// [`mxp_open`] on a slice.
pub(crate) fn open(trace: &[u8]) -> OpenAnswer {
    // SAFETY: the slice and the room are as said above.
    answer_of(|out| unsafe { mxp_open(trace.as_ptr(), trace.len(), out) })
}

/// [`mxp_step`] on a slice.
pub(crate) fn step(trace: &[u8], next: usize) -> StepAnswer {
    // SAFETY: the slice and the room are as said above.
    answer_of(|out| unsafe { mxp_step(trace.as_ptr(), trace.len(), next as u64, out) })
}

/// What a call writes to the room for its answer.
fn answer_of<const NUMBERS: usize>(call: impl FnOnce(*mut [u64; NUMBERS])) -> [u64; NUMBERS] {
    let mut out = [UNWRITTEN; NUMBERS];
    call(&mut out);
    out
}

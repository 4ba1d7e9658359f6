//! The library under test: its calls over what is lent to them, and the reference's answers in the library's numbers.

use std::ops::Range;

use mxp::raw::{self, CheckAnswer, ClaimAnswer, FillAnswer, OpenAnswer, RowsAnswer, StateAnswer, StepAnswer};
use reference::{Claim, LastState, Refusal, State, Verdict, Walker, Wide};

/// Calls the checker. The trace is lent as one that might change, so that a write into it is seen afterwards and not
/// assumed away.
pub fn check(trace: &mut [u8], out: &mut CheckAnswer) {
    // SAFETY: the pointer and the length are those of one slice, `out` is an answer's room, and both outlive the call.
    unsafe { raw::mxp_check(trace.as_mut_ptr().cast_const(), trace.len(), out) }
}

/// Calls the filler. The list is lent as one that might change, as a trace is.
pub fn fill(list: &mut [u8], empty_rows: u64, buffer: &mut [u8], out: &mut FillAnswer) {
    let (list, list_len) = (list.as_mut_ptr().cast_const(), list.len());
    // SAFETY: each pointer and length are those of one slice, `out` is an answer's room, no two of them overlap, and
    // all outlive the call.
    unsafe { raw::mxp_fill(list, list_len, empty_rows, buffer.as_mut_ptr(), buffer.len(), out) }
}

/// Asks for the rows of instruction k. The trace is lent as one that might change, as for all calls over a trace.
pub fn rows(trace: &mut [u8], k: u64, out: &mut RowsAnswer) {
    // SAFETY: the pointer and the length are those of one slice, `out` is an answer's room, and both outlive the call.
    unsafe { raw::mxp_rows(trace.as_mut_ptr().cast_const(), trace.len(), k, out) }
}

/// Asks for the claim of instruction k.
pub fn claim(trace: &mut [u8], k: u64, out: &mut ClaimAnswer) {
    // SAFETY: as above.
    unsafe { raw::mxp_claim(trace.as_mut_ptr().cast_const(), trace.len(), k, out) }
}

/// Asks for the last state of a context, with a limit on the cycles to look at.
pub fn last_state(trace: &mut [u8], cn: u32, limit: u64, out: &mut StateAnswer) {
    // SAFETY: as above.
    unsafe { raw::mxp_last_state(trace.as_mut_ptr().cast_const(), trace.len(), cn, limit, out) }
}

/// Opens a walker.
pub fn open(trace: &mut [u8], out: &mut OpenAnswer) {
    // SAFETY: as above.
    unsafe { raw::mxp_open(trace.as_mut_ptr().cast_const(), trace.len(), out) }
}

/// Lets a walker at a row take a step.
pub fn step(trace: &mut [u8], next: u64, out: &mut StepAnswer) {
    // SAFETY: as above.
    unsafe { raw::mxp_step(trace.as_mut_ptr().cast_const(), trace.len(), next, out) }
}

/// A verdict as the library answers it.
pub fn check_answer(verdict: Verdict) -> CheckAnswer {
    match verdict {
        Verdict::Refused { number } => [number.into(), 0, 0, 0, 0, 0, 0, 0, 0],
        Verdict::Accepted { instructions, oob, empty } => {
            [0, 0, 0, 1, instructions.into(), oob.into(), empty.into(), 0, 0]
        }
        Verdict::Broken { row, constraint } => [0, 0, 0, 0, 0, 0, 0, row.into(), constraint.into()],
    }
}

/// An answer of the filler as the library gives it.
pub fn fill_answer(answer: Result<usize, Refusal>) -> FillAnswer {
    match answer {
        Ok(rows) => [0, 0, 0, rows as u64],
        Err(Refusal { number, line }) => [number.into(), line, 0, 0],
    }
}

/// The rows of an instruction as the library answers them.
pub fn rows_answer(answer: Result<Range<usize>, Refusal>) -> RowsAnswer {
    match answer {
        Ok(part) => [0, 0, 0, part.start as u64, part.len() as u64],
        Err(Refusal { number, line }) => [number.into(), line, 0, 0, 0],
    }
}

/// The claim of an instruction as the library answers it.
pub fn claim_answer(answer: Result<Claim, Refusal>) -> ClaimAnswer {
    match answer {
        Ok(Claim { cn, end1, end2 }) => {
            let ([top1, hi1, lo1], [top2, hi2, lo2]) = (parts_of(end1), parts_of(end2));
            [0, 0, 0, cn.into(), top1, hi1, lo1, top2, hi2, lo2]
        }
        Err(Refusal { number, line }) => [number.into(), line, 0, 0, 0, 0, 0, 0, 0, 0],
    }
}

/// The last state of a context as the library answers it.
pub fn state_answer(answer: Result<LastState, Refusal>) -> StateAnswer {
    match answer {
        Ok(LastState { state: State { mem, cost }, looked }) => [0, 0, 0, mem.into(), cost.into(), looked],
        Err(Refusal { number, line }) => [number.into(), line, 0, 0, 0, 0],
    }
}

/// An opened walker as the library answers it.
pub fn open_answer(answer: Result<Walker, Refusal>) -> OpenAnswer {
    match answer {
        Ok(Walker { next, .. }) => [0, 0, 0, next],
        Err(Refusal { number, line }) => [number.into(), line, 0, 0],
    }
}

/// A step of a walker as the library answers it: the part, and the next row after the step.
pub fn step_answer(part: Option<Range<usize>>, next: u64) -> StepAnswer {
    let part = part.unwrap_or_default();
    [part.start as u64, part.len() as u64, next]
}

fn parts_of(end: Wide) -> [u64; 3] {
    let [top, halves @ ..] = end.to_be_bytes();
    let halves = u128::from_be_bytes(halves);
    [top.into(), (halves >> 64) as u64, halves as u64]
}

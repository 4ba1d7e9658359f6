//! The calls that are measured, and what the library and the reference answer to them.

use std::ops::Range;

use mxp::raw::{self, StepAnswer};
use reference::{Claim, LastState, Refusal, State, Trace, Verdict, Walker, Wide};

use crate::input::{EMPTY_ROWS, Lent};

/// A call, with what it is told beside the bytes that it is lent.
#[derive(Clone, Copy, Debug)]
pub enum Call {
    /// Checks the trace.
    Check,
    /// Fills the buffer from the list.
    Fill,
    /// The rows of instruction k.
    Rows { k: u64 },
    /// The claim of instruction k.
    Claim { k: u64 },
    /// The last state of a context.
    LastState { cn: u32, limit: u64 },
    /// Opens a walker.
    Open,
    /// All steps of a walker up to the one that stays.
    Walk,
}

/// The numbers of an answer as the library gives them, with zeros behind them. A walk answers its steps, the sum of the
/// places of all parts, and the row at which it stays.
pub type Answer = [u64; 10];

fn padded<const N: usize>(numbers: [u64; N]) -> Answer {
    let mut answer = Answer::default();
    answer[..N].copy_from_slice(&numbers);
    answer
}

/// What a call leaves in the numbers that it is lent for its answer.
fn answered<const N: usize>(call: impl FnOnce(&mut [u64; N])) -> Answer {
    let mut numbers = [0; N];
    call(&mut numbers);
    padded(numbers)
}

impl Call {
    /// The word by which a case names it, and what it does.
    pub fn names(self) -> (&'static str, &'static str) {
        match self {
            Call::Check => ("check", "check"),
            Call::Fill => ("fill", "fill"),
            Call::Rows { .. } => ("rows", "rows of the last instruction"),
            Call::Claim { .. } => ("claim", "claim of the last instruction"),
            Call::LastState { .. } => ("last_state", "last state of a context"),
            Call::Open => ("open", "open a walker"),
            Call::Walk => ("walk", "walk by steps"),
        }
    }

    /// The library's answer. It is never inlined, so that a profiler can tell this side by the function's name.
    #[inline(never)]
    pub fn put_to_library(self, lent: &mut Lent) -> Answer {
        let (list, list_len) = (lent.list.as_ptr(), lent.list.len());
        let (buffer, len) = (lent.trace.as_mut_ptr(), lent.trace.len());
        let trace = buffer.cast_const();
        // SAFETY: each pointer and length are those of one slice, `out` is an answer's room, no two of them overlap,
        // and all outlive the call.
        unsafe {
            match self {
                Call::Check => answered(|out| raw::mxp_check(trace, len, out)),
                Call::Fill => answered(|out| raw::mxp_fill(list, list_len, EMPTY_ROWS, buffer, len, out)),
                Call::Rows { k } => answered(|out| raw::mxp_rows(trace, len, k, out)),
                Call::Claim { k } => answered(|out| raw::mxp_claim(trace, len, k, out)),
                Call::LastState { cn, limit } => answered(|out| raw::mxp_last_state(trace, len, cn, limit, out)),
                Call::Open => answered(|out| raw::mxp_open(trace, len, out)),
                Call::Walk => walk(|next| {
                    let mut out = StepAnswer::default();
                    raw::mxp_step(trace, len, next, &mut out);
                    out
                }),
            }
        }
    }

    /// The reference's answer. It is never inlined, as the library's is not.
    #[inline(never)]
    pub fn put_to_reference(self, lent: &mut Lent) -> Answer {
        let Lent { list, trace } = lent;
        let accepted = || Trace::accepted(trace);
        let answer = match self {
            Call::Check => Ok(verdict_numbers(reference::check(trace))),
            Call::Fill => reference::fill(list, EMPTY_ROWS, trace).map(|rows| padded([0, 0, 0, rows as u64])),
            Call::Rows { k } => accepted().and_then(|trace| trace.rows(k)).map(part_numbers),
            Call::Claim { k } => accepted().and_then(|trace| trace.claim(k)).map(claim_numbers),
            Call::LastState { cn, limit } => {
                accepted().and_then(|trace| trace.last_state(cn, limit)).map(state_numbers)
            }
            Call::Open => accepted().map(|trace| padded([0, 0, 0, trace.walker().next])),
            Call::Walk => Ok(walk(|next| {
                let mut walker = Walker { trace, next };
                let part = walker.step().unwrap_or_default();
                [part.start as u64, part.len() as u64, walker.next]
            })),
        };
        answer.unwrap_or_else(|Refusal { number, line }| padded([number.into(), line]))
    }
}

/// Takes steps from the row after the empty ones.
fn walk(mut step: impl FnMut(u64) -> StepAnswer) -> Answer {
    let (mut steps, mut places, mut next) = (0, 0, EMPTY_ROWS);
    loop {
        let [first, bytes, after] = step(next);
        if bytes == 0 {
            return padded([steps, places, after]);
        }
        (steps, places, next) = (steps + 1, places + first, after);
    }
}

fn verdict_numbers(verdict: Verdict) -> Answer {
    match verdict {
        Verdict::Refused { number } => padded([number.into()]),
        Verdict::Accepted { instructions, oob, empty } => {
            padded([0, 0, 0, 1, instructions.into(), oob.into(), empty.into()])
        }
        Verdict::Broken { row, constraint } => padded([0, 0, 0, 0, 0, 0, 0, row.into(), constraint.into()]),
    }
}

fn part_numbers(part: Range<usize>) -> Answer {
    padded([0, 0, 0, part.start as u64, part.len() as u64])
}

fn claim_numbers(Claim { cn, end1, end2 }: Claim) -> Answer {
    let ([top1, hi1, lo1], [top2, hi2, lo2]) = (end_numbers(end1), end_numbers(end2));
    [0, 0, 0, cn.into(), top1, hi1, lo1, top2, hi2, lo2]
}

fn end_numbers(end: Wide) -> [u64; 3] {
    let [top, halves @ ..] = end.to_be_bytes();
    let halves = u128::from_be_bytes(halves);
    [top.into(), (halves >> 64) as u64, halves as u64]
}

fn state_numbers(LastState { state: State { mem, cost }, looked }: LastState) -> Answer {
    padded([0, 0, 0, mem.into(), cost.into(), looked])
}

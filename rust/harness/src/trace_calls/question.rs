//! The calls over a trace as questions, and what the library and the reference answer to them.

use mxp::raw::{ClaimAnswer, OpenAnswer, RowsAnswer, StateAnswer, StepAnswer};
use reference::{Refusal, Trace, Walker};

use crate::Outcome;
use crate::library;
use crate::margins::answered_over;

/// A call over a trace.
#[derive(Clone, Copy, Debug)]
pub enum Question {
    /// The rows of instruction k.
    Rows { k: u64 },
    /// Its claim.
    Claim { k: u64 },
    /// The last state of a context, from at most `limit` cycles.
    LastState { cn: u32, limit: u64 },
    /// Where a walker starts.
    Open,
    /// The step of a walker from a row.
    Step { next: u64 },
}

/// The numbers of an answer, as many as the call has.
pub type Numbers = Vec<u64>;

impl Question {
    /// How many numbers the answer has.
    fn count(self) -> usize {
        match self {
            Question::Rows { .. } => RowsAnswer::default().len(),
            Question::Claim { .. } => ClaimAnswer::default().len(),
            Question::LastState { .. } => StateAnswer::default().len(),
            Question::Open => OpenAnswer::default().len(),
            Question::Step { .. } => StepAnswer::default().len(),
        }
    }

    /// The library's answer, written over numbers that are all `old`.
    pub fn put_to_library(self, trace: &mut [u8], old: u64) -> Outcome<Numbers> {
        fn numbers<const N: usize>(old: u64, call: impl FnOnce(&mut [u64; N])) -> Outcome<Numbers> {
            answered_over(old, call).map(Numbers::from)
        }
        match self {
            Question::Rows { k } => numbers(old, |out| library::rows(trace, k, out)),
            Question::Claim { k } => numbers(old, |out| library::claim(trace, k, out)),
            Question::LastState { cn, limit } => numbers(old, |out| library::last_state(trace, cn, limit, out)),
            Question::Open => numbers(old, |out| library::open(trace, out)),
            Question::Step { next } => numbers(old, |out| library::step(trace, next, out)),
        }
    }

    /// The reference's answer on bytes that it has accepted or refused.
    pub fn put_to_reference(self, bytes: &[u8], trace: Result<Trace, Refusal>) -> Numbers {
        match self {
            Question::Rows { k } => library::rows_answer(trace.and_then(|trace| trace.rows(k))).into(),
            Question::Claim { k } => library::claim_answer(trace.and_then(|trace| trace.claim(k))).into(),
            Question::LastState { cn, limit } => {
                library::state_answer(trace.and_then(|trace| trace.last_state(cn, limit))).into()
            }
            Question::Open => library::open_answer(trace.map(|trace| trace.walker())).into(),
            Question::Step { next } => {
                let mut walker = Walker { trace: bytes, next };
                let part = walker.step();
                library::step_answer(part, walker.next).into()
            }
        }
    }

    /// The answer of a call that is refused: the refusal's number, and all else 0.
    pub fn refused(self, number: u64) -> Numbers {
        let mut numbers = vec![0; self.count()];
        numbers[0] = number;
        numbers
    }
}

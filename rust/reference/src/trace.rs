//! The calls over a trace: the rows of an instruction, its claim, and the last state of a context. A trace is checked
//! once, when it is taken in, and can then be asked as often as one likes.

use std::ops::Range;

use crate::check::{Verdict, check};
use crate::claim::Claim;
use crate::cycle::{State, last_ct};
use crate::refusal::Refusal;
use crate::row::{ROW_BYTES, Row, cn_of, ooob_of, stamp_of};
use crate::walker::Walker;

/// The refusal of a trace that is not accepted.
pub const NOT_ACCEPTED: Refusal = Refusal::of_all(11);
/// The refusal of an instruction that there is not.
pub const NO_INSTRUCTION: Refusal = Refusal::of_all(12);
/// The refusal of context 0, which no instruction has.
pub const CONTEXT_0: Refusal = Refusal::of_all(13);
/// The refusal to look at more cycles than the limit allows.
pub const LIMIT_TOO_LOW: Refusal = Refusal::of_all(14);

/// A trace that is accepted.
#[derive(Clone, Copy, Debug)]
pub struct Trace<'a> {
    bytes: &'a [u8],
    instructions: u32,
    empty: u32,
}

/// How a context stands after all of a trace.
#[derive(Clone, Copy, Debug, PartialEq, Eq)]
pub struct LastState {
    /// The state in which its last cycle left it; of a context without a cycle, nothing reached and nothing paid.
    pub state: State,
    /// How many cycles were looked at, from the last one back: up to the context's last, or all if it has none.
    pub looked: u64,
}

impl<'a> Trace<'a> {
    /// Checks the bytes of a trace.
    pub fn accepted(bytes: &'a [u8]) -> Result<Trace<'a>, Refusal> {
        match check(bytes) {
            Verdict::Accepted { instructions, empty, .. } => Ok(Trace { bytes, instructions, empty }),
            Verdict::Broken { .. } => Err(NOT_ACCEPTED),
            Verdict::Refused { number } => Err(Refusal::of_all(number)),
        }
    }

    /// How many instructions the trace has.
    pub fn instructions(&self) -> u64 {
        self.instructions.into()
    }

    /// Where in the trace the bytes of the rows of instruction k are, counted from 1.
    pub fn rows(&self, k: u64) -> Result<Range<usize>, Refusal> {
        let cycle = self.cycle(k)?;
        Ok(cycle.start * ROW_BYTES..cycle.end * ROW_BYTES)
    }

    /// What instruction k claims, counted from 1.
    pub fn claim(&self, k: u64) -> Result<Claim, Refusal> {
        let cycle = self.cycle(k)?;
        Ok(Claim::of_row(&Row::from_bytes(&self.chunks()[cycle.start])))
    }

    /// How a context stands after the last cycle, if that can be told from at most `limit` cycles.
    pub fn last_state(&self, cn: u32, limit: u64) -> Result<LastState, Refusal> {
        if cn == 0 {
            return Err(CONTEXT_0);
        }
        let mut within_limit = (1..=limit).zip(self.last_rows());
        match within_limit.find(|(_, row)| cn_of(row) == cn) {
            Some((looked, row)) => {
                let Row { memn: mem, costn: cost, .. } = Row::from_bytes(row);
                Ok(LastState { state: State { mem, cost }, looked })
            }
            None if limit < self.instructions() => Err(LIMIT_TOO_LOW),
            None => Ok(LastState { state: State::default(), looked: self.instructions() }),
        }
    }

    /// A walker at the row after the empty ones.
    pub fn walker(&self) -> Walker<'a> {
        Walker { trace: self.bytes, next: self.empty.into() }
    }

    fn chunks(&self) -> &'a [[u8; ROW_BYTES]] {
        self.bytes.as_chunks().0
    }

    /// The rows of instruction k. They have STAMP k, and stamps never fall from a row to the next.
    fn cycle(&self, k: u64) -> Result<Range<usize>, Refusal> {
        if k == 0 || k > self.instructions() {
            return Err(NO_INSTRUCTION);
        }
        let rows_up_to = |stamp| self.chunks().partition_point(|row| u64::from(stamp_of(row)) <= stamp);
        Ok(rows_up_to(k - 1)..rows_up_to(k))
    }

    /// The last row of each cycle, from the last cycle back.
    fn last_rows(&self) -> impl Iterator<Item = &'a [u8; ROW_BYTES]> {
        let mut rows = self.chunks();
        (0..self.instructions).map(move |_| {
            let last = &rows[rows.len() - 1];
            rows = &rows[..rows.len() - 1 - usize::from(last_ct(ooob_of(last)))];
            last
        })
    }
}

#[cfg(test)]
mod tests {
    use super::*;
    use crate::check::MAX_ROWS;
    use crate::draft::Draft;
    use crate::list::claims;
    use crate::list_vectors::SAMPLE;
    use crate::row::Column;
    use crate::wide::Wide;

    /// The claims of the sample of document 01; the last is out of bounds.
    fn sample_claims() -> Vec<Claim> {
        claims(SAMPLE.as_bytes()).collect::<Result<_, _>>().expect("every line is right")
    }

    fn sample() -> Vec<u8> {
        Draft::new(1, &sample_claims()).to_bytes()
    }

    fn accepted(bytes: &[u8]) -> Trace<'_> {
        Trace::accepted(bytes).expect("the trace is accepted")
    }

    fn rows(rows: Range<usize>) -> Range<usize> {
        rows.start * ROW_BYTES..rows.end * ROW_BYTES
    }

    fn state(mem: u32, cost: u32, looked: u64) -> Result<LastState, Refusal> {
        Ok(LastState { state: State { mem, cost }, looked })
    }

    #[test]
    fn instructions_of_the_sample_are_found_by_their_number() {
        let bytes = sample();
        let trace = accepted(&bytes);
        let meant = [1..4, 4..7, 7..10, 10..13, 13..16, 16..33].map(rows);
        for (k, (part, claim)) in (1..).zip(meant.into_iter().zip(sample_claims())) {
            assert_eq!(trace.rows(k), Ok(part), "instruction {k}");
            assert_eq!(trace.claim(k), Ok(claim), "instruction {k}");
        }
    }

    #[test]
    fn no_other_number_is_an_instruction() {
        let bytes = sample();
        for k in [0, 7, 8, 1 << 16, (1 << 32) + 1, u64::MAX] {
            assert_eq!(accepted(&bytes).rows(k), Err(NO_INSTRUCTION), "{k}");
            assert_eq!(accepted(&bytes).claim(k), Err(NO_INSTRUCTION), "{k}");
        }
    }

    #[test]
    fn a_claim_keeps_all_bytes_of_its_ends() {
        let end = |from: u8| Wide::from_be_bytes(std::array::from_fn(|place| from + place as u8));
        let claim = Claim { cn: u32::MAX, end1: end(0x11), end2: end(0xa1) };
        let bytes = Draft::new(3, &[Claim::small(7, 1, 2), claim]).to_bytes();
        assert_eq!(accepted(&bytes).rows(2), Ok(rows(6..23)));
        assert_eq!(accepted(&bytes).claim(2), Ok(claim));
    }

    /// By document 01's own numbers: context 1 has paid 3 and 67 for 705 bytes, context 2 has paid 3 and 3 for 64.
    #[test]
    fn the_last_state_counts_the_cycles_up_to_the_limit() {
        let bytes = sample();
        let trace = accepted(&bytes);
        for (cn, (mem, cost, needed)) in [(1, (705, 70, 3)), (2, (64, 6, 1)), (3, (0, 0, 6)), (u32::MAX, (0, 0, 6))] {
            for limit in 0..needed {
                assert_eq!(trace.last_state(cn, limit), Err(LIMIT_TOO_LOW), "context {cn}, limit {limit}");
            }
            for limit in [needed, needed + 1, 7, 1 << 32, u64::MAX] {
                assert_eq!(trace.last_state(cn, limit), state(mem, cost, needed), "context {cn}, limit {limit}");
            }
        }
    }

    #[test]
    fn context_0_is_refused_at_any_limit() {
        let (bytes, empty) = (sample(), [0; ROW_BYTES]);
        for limit in [0, 1, 6, u64::MAX] {
            assert_eq!(accepted(&bytes).last_state(0, limit), Err(CONTEXT_0));
            assert_eq!(accepted(&empty).last_state(0, limit), Err(CONTEXT_0));
        }
    }

    #[test]
    fn empty_rows_have_no_instruction_and_need_no_look() {
        let empty = [0; 5 * ROW_BYTES];
        let trace = accepted(&empty);
        assert_eq!(trace.rows(0), Err(NO_INSTRUCTION));
        assert_eq!(trace.rows(1), Err(NO_INSTRUCTION));
        assert_eq!(trace.last_state(1, 0), state(0, 0, 0));
        assert_eq!(trace.walker().next, 5);
    }

    #[test]
    fn only_accepted_traces_are_taken_in() {
        let refusal = |bytes: &[u8]| Trace::accepted(bytes).expect_err("the trace is refused").number;
        let mut bytes = sample();
        assert_eq!(refusal(&[]), 9);
        assert_eq!(refusal(&bytes[1..]), 9);
        assert_eq!(refusal(&bytes[ROW_BYTES..]), 11);
        assert_eq!(refusal(&bytes[..2 * ROW_BYTES]), 11);
        bytes.resize((MAX_ROWS + 1) * ROW_BYTES, 0);
        assert_eq!(refusal(&bytes), 10);
        assert_eq!(refusal(&bytes[1..]), 9);
        let last_row = Draft::new(1, &sample_claims()).set(32, Column::AUX2, 1u8).to_bytes();
        assert_eq!(refusal(&last_row), 11);
    }

    #[test]
    fn a_full_trace_is_looked_at_back_to_its_first_cycle() {
        let claims: Vec<Claim> = (1..=21_845).map(|cn| Claim::small(cn, cn, 0)).collect();
        let bytes = Draft::new(1, &claims).to_bytes();
        let trace = accepted(&bytes);
        assert_eq!(trace.rows(21_845), Ok(rows(MAX_ROWS - 3..MAX_ROWS)));
        assert_eq!(trace.last_state(1, 21_845), state(1, 3, 21_845));
        assert_eq!(trace.last_state(1, 21_844), Err(LIMIT_TOO_LOW));
        assert_eq!(trace.last_state(21_846, 21_845), state(0, 0, 21_845));
        assert_eq!(trace.last_state(21_846, 21_844), Err(LIMIT_TOO_LOW));
    }
}

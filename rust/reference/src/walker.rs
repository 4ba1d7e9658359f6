//! The walker: goes through a trace cycle by cycle. Its step works on any bytes and from any row.

use std::ops::Range;

use crate::cycle::last_ct;
use crate::refusal::Refusal;
use crate::row::{ROW_BYTES, ooob_of};
use crate::trace::Trace;

/// A trace, and the row with which the next step begins.
#[derive(Clone, Copy, Debug, PartialEq, Eq)]
pub struct Walker<'a> {
    /// The lent trace.
    pub trace: &'a [u8],
    /// The next row.
    pub next: u64,
}

impl<'a> Walker<'a> {
    /// A walker at the first cycle of a trace, which must be accepted.
    pub fn open(trace: &'a [u8]) -> Result<Walker<'a>, Refusal> {
        Trace::accepted(trace).map(|trace| trace.walker())
    }

    /// Where in the trace the bytes of the next cycle are, 17 rows if the next row's OOOB is 1, else 3; the walker moves
    /// past them. If so many whole rows don't remain, there is none and the walker stays.
    #[inline]
    pub fn step(&mut self) -> Option<Range<usize>> {
        let (rows, _) = self.trace.as_chunks::<ROW_BYTES>();
        let next = usize::try_from(self.next).ok()?;
        let ooob = ooob_of(rows.get(next)?);
        let cycle = next..next + usize::from(last_ct(ooob)) + 1;
        rows.get(cycle.clone())?;
        self.next = cycle.end as u64;
        Some(cycle.start * ROW_BYTES..cycle.end * ROW_BYTES)
    }
}

#[cfg(test)]
mod tests {
    use super::*;
    use crate::claim::Claim;
    use crate::draft::Draft;
    use crate::row::Column;

    /// Two empty rows, then rows 2 to 4 in bounds, 5 to 21 out of bounds and 22 to 24 in bounds.
    fn tour() -> Draft {
        Draft::new(2, &[Claim::small(1, 32, 0), Claim::small(2, 0, 0x0100_0000), Claim::small(1, 64, 0)])
    }

    /// The step from a row: where the part is by rows, and the row after the step.
    fn step(trace: &[u8], next: u64) -> (Option<Range<usize>>, u64) {
        let mut walker = Walker { trace, next };
        let part = walker.step();
        let by_rows = part.map(|part| {
            assert_eq!((part.start % ROW_BYTES, part.end % ROW_BYTES), (0, 0));
            part.start / ROW_BYTES..part.end / ROW_BYTES
        });
        (by_rows, walker.next)
    }

    #[test]
    fn a_walk_goes_through_all_cycles_and_stays_at_the_end() {
        let bytes = tour().to_bytes();
        let trace = Trace::accepted(&bytes).expect("the trace is accepted");
        let mut walker = Walker::open(&bytes).expect("the trace is accepted");
        assert_eq!(walker.next, 2);
        for (k, next) in [(1, 5), (2, 22), (3, 25)] {
            assert_eq!(walker.step(), trace.rows(k).ok());
            assert_eq!(walker.next, next);
        }
        for _ in 0..2 {
            assert_eq!(walker.step(), None);
            assert_eq!(walker, Walker { trace: &bytes, next: 25 });
        }
    }

    #[test]
    fn a_walker_opens_on_accepted_traces_alone() {
        let bytes = tour().to_bytes();
        let refusal = |bytes| Walker::open(bytes).expect_err("the trace is refused").number;
        assert_eq!(refusal(&[]), 9);
        assert_eq!(refusal(&bytes[1..]), 9);
        assert_eq!(refusal(&bytes[2 * ROW_BYTES..]), 11);
        assert_eq!(refusal(&vec![0; 65_537 * ROW_BYTES]), 10);
        assert_eq!(Walker::open(&[0; 4 * ROW_BYTES]), Ok(Walker { trace: &[0; 4 * ROW_BYTES], next: 4 }));
    }

    #[test]
    fn a_step_begins_at_any_row() {
        let bytes = tour().to_bytes();
        for next in 0..25 {
            let rows = if (5..22).contains(&next) { 17 } else { 3 };
            let after = next + rows;
            let meant = if after <= 25 { (Some(next..after), after as u64) } else { (None, next as u64) };
            assert_eq!(step(&bytes, next as u64), meant, "from row {next}");
        }
    }

    #[test]
    fn only_an_ooob_of_1_takes_17_rows() {
        for ooob in 0..=u8::MAX {
            let bytes = tour().set(4, Column::OOOB, ooob).to_bytes();
            let after = if ooob == 1 { 21 } else { 7 };
            assert_eq!(step(&bytes, 4), (Some(4..after), after as u64), "OOOB {ooob}");
        }
    }

    #[test]
    fn a_part_of_a_row_is_no_row() {
        let bytes = tour().to_bytes();
        assert_eq!(step(&bytes[..5 * ROW_BYTES], 2), (Some(2..5), 5));
        assert_eq!(step(&bytes[..5 * ROW_BYTES - 1], 2), (None, 2));
        assert_eq!(step(&bytes[..6 * ROW_BYTES - 1], 2), (Some(2..5), 5));
        assert_eq!(step(&bytes[..22 * ROW_BYTES - 1], 5), (None, 5));
        assert_eq!(step(&bytes[..22 * ROW_BYTES], 5), (Some(5..22), 22));
        assert_eq!(step(&bytes[..ROW_BYTES - 1], 0), (None, 0));
        assert_eq!(step(&[], 0), (None, 0));
    }

    #[test]
    fn no_next_row_overflows() {
        let bytes = tour().to_bytes();
        let wraps = u64::MAX / ROW_BYTES as u64;
        for next in [25, 26, 1 << 32, wraps, wraps + 1, wraps + 2, 1 << 63, (1 << 63) + 2, u64::MAX - 2, u64::MAX] {
            assert_eq!(step(&bytes, next), (None, next));
            assert_eq!(step(&[], next), (None, next));
        }
    }
}

//! What an instruction of a trace claims.

use crate::answer::Answer;
use crate::end::End;
use crate::raw::{self, ClaimAnswer};
use crate::refusal::Refusal;

/// A context, and the ends of the two ranges that its instruction touches.
#[derive(Clone, Copy, Debug, PartialEq, Eq, Hash)]
pub struct Claim {
    /// The context, CN; never 0.
    pub context: u32,
    /// The end of the first range, or 0.
    pub end1: End,
    /// The end of the second range, or 0.
    pub end2: End,
}

impl Claim {
    /// Whether the instruction is in bounds: both its ends are.
    pub fn in_bounds(self) -> bool {
        self.end1.in_bounds() && self.end2.in_bounds()
    }
}

/// The claim of instruction `k` of a trace, counted from 1. The trace is checked by each such question.
///
/// ```
/// use mxp::{Claim, End, Refusal};
///
/// # let list = include_bytes!("../../../data/account/sample_of_the_document.list");
/// # let mut buffer = [0; 33 * mxp::ROW_BYTES];
/// // The trace of the six instructions of the crate's example.
/// let trace = mxp::fill(list, 1, &mut buffer)?;
/// let read = Claim { context: 1, end1: End::from(705_u64), end2: End::default() };
/// assert_eq!(mxp::claim(trace, 3)?, read);
/// assert!(read.in_bounds());
/// assert!(!mxp::claim(trace, 6)?.in_bounds());
/// assert_eq!(mxp::claim(trace, 7), Err(Refusal::NoInstruction));
/// # Ok::<(), Refusal>(())
/// ```
///
/// # Errors
///
/// [`Refusal::TraceLength`], [`Refusal::TraceTooLong`], [`Refusal::NotAccepted`] and [`Refusal::NoInstruction`].
pub fn claim(trace: &[u8], k: usize) -> Result<Claim, Refusal> {
    claimed(&raw::claim(trace, k))
}

fn claimed(numbers: &ClaimAnswer) -> Result<Claim, Refusal> {
    let answer = Answer { call: "mxp_claim", numbers };
    answer.not_refused(&[9, 10, 11, 12])?;
    let &[_, _, _, cn, top1, hi1, lo1, top2, hi2, lo2] = numbers;
    answer.demand(cn != 0);
    let end1 = End::new(answer.narrowed(top1), hi1, lo1);
    let end2 = End::new(answer.narrowed(top2), hi2, lo2);
    Ok(Claim { context: answer.narrowed(cn), end1, end2 })
}

#[cfg(test)]
mod tests {
    use super::*;
    use crate::answer::tests::assert_not_believed;

    #[test]
    fn documented_answers_are_told() {
        let claim = Claim { context: u32::MAX, end1: End::new(255, 3, 4), end2: End::new(1, 6, 7) };
        assert_eq!(claimed(&[0, 0, 0, u32::MAX.into(), 255, 3, 4, 1, 6, 7]), Ok(claim));
        assert_eq!(claimed(&[12, 0, 0, 0, 0, 0, 0, 0, 0, 0]), Err(Refusal::NoInstruction));
    }

    #[test]
    fn undocumented_answers_are_not_believed() {
        let outside = [
            [0, 0, 0, 0, 0, 0, 4, 0, 0, 7],
            [0, 0, 0, 1 << 32, 0, 0, 4, 0, 0, 7],
            [0, 0, 0, 1, 256, 0, 4, 0, 0, 7],
            [0, 0, 0, 1, 0, 0, 4, 256, 0, 7],
            [13, 0, 0, 0, 0, 0, 0, 0, 0, 0],
        ];
        assert_not_believed(claimed, &outside);
    }
}

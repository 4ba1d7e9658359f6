//! What a context has reached and paid at the end of a trace.

use crate::answer::Answer;
use crate::raw::{self, StateAnswer};
use crate::refusal::Refusal;

/// The state of a context.
#[derive(Clone, Copy, Debug, Default, PartialEq, Eq, Hash)]
pub struct State {
    /// The bytes of memory reached.
    pub mem: u64,
    /// The gas paid for them in all.
    pub cost: u64,
}

/// The last state of a context, and how far back it stood.
#[derive(Clone, Copy, Debug, PartialEq, Eq, Hash)]
pub struct LastState {
    /// The state; of zeros if the context has no cycle.
    pub state: State,
    /// How many cycles were looked at: the place of the context's last one, counted from the end, or all of them if it
    /// has none.
    pub looked: usize,
}

/// The last state of a context in a trace, with a look at no more than `limit` cycles, from the last one back. The trace
/// is checked by each such question.
///
/// ```
/// use mxp::{LastState, Refusal, State};
///
/// # let list = include_bytes!("../../../data/account/sample_of_the_document.list");
/// # let mut buffer = [0; 33 * mxp::ROW_BYTES];
/// // The trace of the six instructions of the crate's example.
/// let trace = mxp::fill(list, 1, &mut buffer)?;
/// let last = LastState { state: State { mem: 705, cost: 70 }, looked: 3 };
/// assert_eq!(mxp::last_state(trace, 1, 3)?, last);
/// assert_eq!(mxp::last_state(trace, 1, 2), Err(Refusal::LimitTooLow));
///
/// // Context 3 has no instruction, and all six cycles have to be looked at to see that.
/// let none = LastState { state: State::default(), looked: 6 };
/// assert_eq!(mxp::last_state(trace, 3, usize::MAX)?, none);
/// # Ok::<(), Refusal>(())
/// ```
///
/// # Errors
///
/// [`Refusal::TraceLength`], [`Refusal::TraceTooLong`], [`Refusal::NotAccepted`], [`Refusal::ContextZero`] and
/// [`Refusal::LimitTooLow`].
pub fn last_state(trace: &[u8], context: u32, limit: usize) -> Result<LastState, Refusal> {
    state_told(limit, &raw::last_state(trace, context, limit))
}

fn state_told(limit: usize, numbers: &StateAnswer) -> Result<LastState, Refusal> {
    let answer = Answer { call: "mxp_last_state", numbers };
    answer.not_refused(&[9, 10, 11, 13, 14])?;
    let &[_, _, _, mem, cost, looked] = numbers;
    let looked = answer.narrowed(looked);
    answer.demand(looked <= limit);
    // Both come from cells of a row, of 3 and of 4 bytes.
    let [mem, cost] = [mem, cost].map(|cell| answer.narrowed::<u32>(cell).into());
    Ok(LastState { state: State { mem, cost }, looked })
}

#[cfg(test)]
mod tests {
    use super::*;
    use crate::answer::tests::assert_not_believed;

    #[test]
    fn documented_answers_are_told() {
        let last = LastState { state: State { mem: 705, cost: 70 }, looked: 3 };
        assert_eq!(state_told(3, &[0, 0, 0, 705, 70, 3]), Ok(last));
        assert_eq!(state_told(2, &[14, 0, 0, 0, 0, 0]), Err(Refusal::LimitTooLow));
    }

    #[test]
    fn undocumented_answers_are_not_believed() {
        let outside =
            [[0, 0, 0, 705, 70, 4], [0, 0, 0, 1 << 32, 70, 3], [0, 0, 0, 705, 1 << 32, 3], [12, 0, 0, 0, 0, 0]];
        assert_not_believed(|numbers| state_told(3, numbers), &outside);
    }
}

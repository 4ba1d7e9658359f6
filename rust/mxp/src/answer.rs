//! Answers taken in strictly: one that the header does not allow stops the program and is never believed.

use crate::ROW_BYTES;
use crate::refusal::Refusal;

/// The numbers that a call answered.
pub struct Answer<'a> {
    /// The call's name in the header.
    pub call: &'static str,
    /// All numbers of the answer.
    pub numbers: &'a [u64],
}

impl Answer<'_> {
    /// The refusal that an answer starts with, if there is one: of those that the call may give, and all else 0.
    pub fn not_refused(&self, allowed: &[u64]) -> Result<(), Refusal> {
        let &[refused, line, column, ref rest @ ..] = self.numbers else { self.undocumented() };
        self.demand(column == 0);
        if refused == 0 {
            self.demand(line == 0);
            return Ok(());
        }
        self.demand(allowed.contains(&refused) && rest.iter().all(|&number| number == 0));
        Err(self.present(Refusal::new(refused, self.narrowed(line))))
    }

    /// A number of the answer as the narrower kind that it must fit.
    pub fn narrowed<T: TryFrom<u64>>(&self, number: u64) -> T {
        self.present(T::try_from(number).ok())
    }

    /// The part of a trace that the answer gives by its first byte and its length: whole rows.
    pub fn part<'t>(&self, trace: &'t [u8], first: u64, length: u64) -> &'t [u8] {
        self.demand([first, length].iter().all(|bytes| bytes.is_multiple_of(ROW_BYTES as u64)));
        let after = self.present(first.checked_add(length));
        self.present(trace.get(self.narrowed(first)..self.narrowed(after)))
    }

    /// What an answer of the documented form has; stops if there is none.
    pub fn present<T>(&self, value: Option<T>) -> T {
        value.unwrap_or_else(|| self.undocumented())
    }

    /// Stops unless what the header says of the answer holds.
    pub fn demand(&self, holds: bool) {
        if !holds {
            self.undocumented();
        }
    }

    /// Stops: the library that was linked is not the one that this crate speaks for.
    fn undocumented(&self) -> ! {
        panic!("{} of libmxp.a answered {:?}, which its header does not allow", self.call, self.numbers)
    }
}

#[cfg(test)]
pub mod tests {
    use std::fmt::Debug;
    use std::panic::{RefUnwindSafe, catch_unwind};

    use super::*;

    /// Sees that answers that the header does not allow stop what takes them in.
    pub fn assert_not_believed<const NUMBERS: usize, T: Debug>(
        take_in: impl Fn(&[u64; NUMBERS]) -> T + RefUnwindSafe,
        outside: &[[u64; NUMBERS]],
    ) {
        for numbers in outside.iter().chain([&[u64::MAX; NUMBERS]]) {
            let told = catch_unwind(|| take_in(numbers));
            assert!(told.is_err(), "{numbers:?} was taken for {told:?}");
        }
    }

    const CALL: &str = "a_call";
    const ALLOWED: [u64; 3] = [3, 4, 9];

    fn told(numbers: &[u64]) -> Result<(), Refusal> {
        Answer { call: CALL, numbers }.not_refused(&ALLOWED)
    }

    #[test]
    fn a_refusal_that_the_call_may_give_is_told_with_its_line() {
        assert_eq!(told(&[0, 0, 0, 5, 6]), Ok(()));
        assert_eq!(told(&[3, 7, 0, 0, 0]), Err(Refusal::NotOfForm { line: 7 }));
        assert_eq!(told(&[9, 0, 0, 0, 0]), Err(Refusal::TraceLength));
    }

    #[test]
    fn an_undocumented_head_stops_with_the_call_and_its_numbers() {
        let outside: [&[u64]; 10] = [
            &[],
            &[0, 0],
            &[0, 1, 0, 5],
            &[0, 0, 1, 5],
            &[3, 7, 1, 0],
            &[3, 0, 0, 0],
            &[9, 1, 0, 0],
            &[9, 0, 0, 1],
            &[5, 1, 0, 0],
            &[u64::MAX; 4],
        ];
        for numbers in outside {
            let stopped = catch_unwind(|| told(numbers)).expect_err("the answer must not be believed");
            let said = stopped.downcast_ref::<String>().expect("a panic says why in words");
            assert_eq!(*said, format!("a_call of libmxp.a answered {numbers:?}, which its header does not allow"));
        }
    }

    #[test]
    fn a_part_is_of_whole_rows_in_its_trace() {
        let (trace, answer) = ([0; 3 * ROW_BYTES], Answer { call: CALL, numbers: &[] });
        assert_eq!(answer.part(&trace, 114, 228), &trace[ROW_BYTES..]);
        assert_eq!(answer.part(&trace, 342, 0), []);
        let most = u64::MAX / 114 * 114;
        for (first, length) in [(113, 114), (114, 113), (228, 228), (456, 0), (most, 114), (114, most)] {
            let part = || answer.part(&trace, first, length).len();
            catch_unwind(part).expect_err("a part outside the trace must not be given");
        }
    }
}

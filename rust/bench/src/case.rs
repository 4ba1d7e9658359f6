//! A call on an input: how it is measured, and what it took.

use std::hint::black_box;
use std::mem;
use std::time::Duration;

use reference::{MAX_ROWS, ROW_BYTES};

use crate::Outcome;
use crate::bounds::Bounds;
use crate::call::{Answer, Call};
use crate::input::{Input, Lent, MOST_IN_BOUNDS, SEED};
use crate::timing::{Budget, Times, quickest};

/// What a bound on the library's time goes by.
#[derive(Clone, Copy, Debug, PartialEq, Eq)]
pub enum By {
    /// The reference's time for the same.
    Reference,
    /// The library's own time for the same call on one context, in the same run.
    OneContext,
}

/// What the library is measured beside.
#[derive(Clone, Copy, Debug, PartialEq, Eq)]
pub enum Beside {
    /// The same call of the reference.
    Reference,
    /// One look at each byte of the trace or the buffer.
    Reading,
}

/// A call on an input.
#[derive(Clone, Copy, Debug)]
pub struct Case {
    /// The call.
    pub call: Call,
    /// The input.
    pub input: Input,
    /// What it is measured beside.
    pub beside: Beside,
    /// The bounds on the library's time, and what they go by.
    pub bounds: Option<(By, Bounds)>,
    /// So many inputs of the kind are gone through one after another, no two of them the same.
    pub inputs: u64,
}

/// The refusal of a list that makes more rows than a trace may have.
const TOO_MANY_ROWS: u64 = 7;

/// What a case took.
#[derive(Clone, Copy)]
pub struct Measured {
    /// The case.
    pub case: Case,
    /// The times for all units.
    pub times: Times,
    /// How many units there are.
    pub units: usize,
    /// What a unit is.
    pub unit: &'static str,
}

impl Case {
    /// A call on an input beside the reference, without bounds.
    pub fn new(call: Call, input: Input) -> Case {
        Case { call, input, beside: Beside::Reference, bounds: None, inputs: 1 }
    }

    /// The same call on one context, a full trace.
    pub fn on_one_context(&self) -> Case {
        Case::new(self.call, Input::One { rows: MAX_ROWS })
    }

    /// The name by which it is asked for: the call and the input.
    pub fn name(&self) -> String {
        format!("{}:{}", self.call.names().0, self.input.names().0)
    }

    /// What the call is lent; of several inputs, the first.
    pub fn lent(&self) -> Outcome<Lent> {
        self.lent_for(SEED)
    }

    fn lent_for(&self, seed: u64) -> Outcome<Lent> {
        match self.call {
            Call::Fill => Ok(self.input.with_buffer(seed)),
            _ => self.input.with_trace(seed),
        }
    }

    /// Compares the answers of both sides on each input, then times both over all of them.
    pub fn measure(&self, budget: Budget) -> Outcome<Measured> {
        let mut inputs = (0..self.inputs).map(|place| self.lent_for(SEED + place)).collect::<Outcome<Vec<Lent>>>()?;
        let (mut units, mut unit) = (0, "");
        for lent in &mut inputs {
            let answer = self.agreed(lent)?;
            let (more, of) = self.units(lent, &answer);
            (units, unit) = (units + more, of);
        }
        let library = |inputs: &mut Vec<Lent>| inputs.iter_mut().for_each(|lent| self.call_library(lent));
        let other = |inputs: &mut Vec<Lent>| inputs.iter_mut().for_each(|lent| self.call_other(lent));
        let times = quickest(budget, &mut inputs, library, other);
        Ok(Measured { case: *self, times, units, unit })
    }

    /// Calls the library for its time alone.
    pub fn call_library(&self, lent: &mut Lent) {
        black_box(self.call.put_to_library(lent));
    }

    /// Calls what the library is measured beside, for its time alone.
    pub fn call_other(&self, lent: &mut Lent) {
        match self.beside {
            Beside::Reference => drop(black_box(self.call.put_to_reference(lent))),
            Beside::Reading => drop(black_box(sum_of_words(&lent.trace))),
        }
    }

    /// The answer, if both sides give the same, leave the same bytes, and the call did the work that is to be measured.
    pub fn agreed(&self, lent: &mut Lent) -> Outcome<Answer> {
        let before = lent.trace.clone();
        let reference = self.call.put_to_reference(lent);
        let left = mem::replace(&mut lent.trace, before);
        let library = self.call.put_to_library(lent);
        let told = |what: &str| Err(format!("{}: {what}: library {library:?}, reference {reference:?}", self.name()));
        if library != reference {
            told("the answers differ")
        } else if lent.trace != left {
            told("the answers are the same, the bytes that are left differ")
        } else if !self.is_meant(&library) {
            told("both answer what is not meant")
        } else {
            Ok(library)
        }
    }

    /// Whether an answer says that the whole input was gone through.
    fn is_meant(&self, answer: &Answer) -> bool {
        match self.call {
            Call::Check => answer[..4] == [0, 0, 0, 1],
            Call::Fill if self.input.is_too_much() => answer[0] == TOO_MANY_ROWS,
            Call::Walk => answer[0] == MOST_IN_BOUNDS as u64,
            _ => answer[0] == 0,
        }
    }

    /// A walk goes by steps, a list that is refused by its bytes, all else by rows.
    pub fn units(&self, lent: &Lent, answer: &Answer) -> (usize, &'static str) {
        match self.call {
            Call::Walk => (answer[0] as usize, "step"),
            Call::Fill if self.input.is_too_much() => (lent.list.len(), "byte"),
            Call::Fill => (answer[3] as usize, "row"),
            _ => (lent.trace.len() / ROW_BYTES, "row"),
        }
    }
}

/// Reads each byte once.
fn sum_of_words(bytes: &[u8]) -> u64 {
    let (words, rest) = bytes.as_chunks();
    let words = words.iter().map(|&word| u64::from_ne_bytes(word));
    words.chain(rest.iter().map(|&byte| byte.into())).fold(0, u64::wrapping_add)
}

impl Measured {
    /// The lesser times of two measurements of one case.
    pub fn least(self, again: Measured) -> Measured {
        Measured { times: self.times.least(again.times), ..self }
    }

    /// The library's time by that of what it is measured beside.
    pub fn ratio(&self) -> f64 {
        self.times.library.as_secs_f64() / self.times.other.as_secs_f64()
    }

    /// Nanoseconds that a unit takes, where all take so long.
    pub fn per_unit(&self, time: Duration) -> f64 {
        time.as_secs_f64() * 1e9 / self.units as f64
    }

    /// The library's time by what a bound goes by, if that is among the cases of a run.
    pub fn ratio_by(&self, by: By, run: &[Measured]) -> Option<f64> {
        match by {
            By::Reference => Some(self.ratio()),
            By::OneContext => {
                let name = self.case.on_one_context().name();
                let one = run.iter().find(|measured| measured.case.name() == name)?;
                Some(self.per_unit(self.times.library) / one.per_unit(one.times.library))
            }
        }
    }

    /// Whether the floor, where there is one, is seen from a run to be kept.
    pub fn keeps_floor(&self, run: &[Measured]) -> bool {
        let Some((by, bounds)) = self.case.bounds else { return true };
        self.ratio_by(by, run).is_some_and(|ratio| bounds.keeps_floor(ratio))
    }
}

#[cfg(test)]
mod tests {
    use super::*;

    /// A check of an input that took so many milliseconds.
    fn measured(input: Input, library: u64, other: u64, bounds: Option<(By, Bounds)>) -> Measured {
        let times = Times { library: Duration::from_millis(library), other: Duration::from_millis(other) };
        let case = Case { bounds, ..Case::new(Call::Check, input) };
        Measured { case, times, units: 1_000, unit: "row" }
    }

    #[test]
    fn every_case_at_a_small_size_agrees_and_one_that_is_damaged_is_no_measure() {
        let small = Input::One { rows: 1_000 };
        for call in [Call::Check, Call::Fill, Call::Rows { k: 333 }, Call::Claim { k: 333 }, Call::Open] {
            let case = Case::new(call, small);
            let mut lent = case.lent().expect("the reference fills it");
            assert!(case.agreed(&mut lent).is_ok(), "{call:?}");
            lent.list[0] ^= 1;
            lent.trace[0] ^= 1;
            let told = case.agreed(&mut lent).expect_err("both refuse it");
            assert!(told.contains("both answer what is not meant"), "{told}");
        }
    }

    #[test]
    fn several_inputs_are_gone_through_and_no_two_are_the_same() {
        let case = Case { inputs: 3, ..Case::new(Call::Check, Input::Block { rows: 1_000 }) };
        let lists = [0, 1, 2].map(|place| case.lent_for(SEED + place).expect("the reference fills it").list);
        assert!(lists[0] != lists[1] && lists[1] != lists[2] && lists[0] == case.lent().expect("the same").list);
        let measured = case.measure(Budget { passes: 1, time: Duration::ZERO, rounds: 1 }).expect("both agree");
        assert_eq!((measured.units, measured.unit), (3_000, "row"));
    }

    #[test]
    fn a_floor_by_the_reference_is_kept_up_to_it() {
        let bounds = Some((By::Reference, Bounds { floor: 1.25, target: 1.0 }));
        assert!(measured(Input::Rising, 125, 100, bounds).keeps_floor(&[]));
        assert!(!measured(Input::Rising, 126, 100, bounds).keeps_floor(&[]));
        assert!(measured(Input::Rising, 126, 100, None).keeps_floor(&[]));
    }

    #[test]
    fn a_floor_by_one_context_is_of_the_librarys_own_times() {
        let bounds = Some((By::OneContext, Bounds { floor: 1.5, target: 1.1 }));
        let one = measured(Input::One { rows: MAX_ROWS }, 100, 1, None);
        let run = [measured(Input::Falling, 1, 1, None), one];
        assert!(measured(Input::Rising, 150, 1, bounds).keeps_floor(&run));
        assert!(!measured(Input::Rising, 151, 1_000, bounds).keeps_floor(&run));
        assert!(!measured(Input::Rising, 1, 1, bounds).keeps_floor(&run[..1]));
        let fill = Measured { case: Case { bounds, ..Case::new(Call::Fill, Input::Rising) }, ..one };
        assert_eq!(fill.ratio_by(By::OneContext, &run), None);
    }

    #[test]
    fn a_time_is_told_by_its_units() {
        let measured = measured(Input::Rising, 3, 2, None);
        assert_eq!(measured.per_unit(measured.times.library), 3_000.0);
        assert_eq!(measured.ratio(), 1.5);
    }

    #[test]
    fn every_byte_is_read() {
        let bytes: Vec<u8> = (1..=19).collect();
        for place in 0..bytes.len() {
            let mut other = bytes.clone();
            other[place] ^= 1;
            assert_ne!(sum_of_words(&other), sum_of_words(&bytes), "byte {place}");
        }
    }
}

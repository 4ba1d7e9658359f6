//! A run: all that is measured, gone through in passes, and what was found.

use std::collections::BTreeMap;

use crate::Outcome;
use crate::call::Call;
use crate::case::{Case, Measured};
use crate::footprint::{self, Footprint};
use crate::plan::{self, GROWTH};
use crate::timing::Budget;

/// What a run over everything found.
pub struct Found {
    /// How long it was measured.
    pub budget: Budget,
    /// Each call on its inputs, beside the reference.
    pub calls: Vec<Measured>,
    /// Check and fill, each on more and more rows of a block of calls.
    pub growth: [Vec<Measured>; 2],
    /// Check and fill, each beside a reading of the bytes.
    pub reading: Vec<Measured>,
    /// What memory each call takes.
    pub footprints: BTreeMap<&'static str, Footprint>,
}

impl Found {
    /// Measures everything.
    pub fn measure(budget: Budget) -> Outcome<Found> {
        let growing = [Call::Check, Call::Fill].map(plan::growing);
        let (calls, reading) = (plan::all(), plan::beside_reading());
        let footprints = footprint::by_call(&calls)?;
        let everything = [&calls[..], growing.as_flattened(), &reading].concat();
        let mut measured = measure(&everything, budget)?.into_iter();
        let mut next = |cases: &[Case]| measured.by_ref().take(cases.len()).collect();
        let calls = next(&calls);
        let growth = growing.map(|cases| next(&cases));
        Ok(Found { budget, calls, growth, reading: next(&reading), footprints })
    }

    /// The floors that are not kept, in words.
    pub fn missed_floors(&self) -> Vec<String> {
        let missed = self.calls.iter().filter(|measured| !measured.keeps_floor(&self.calls));
        let times = missed.map(|measured| format!("{} takes too long", measured.case.name()));
        let missed = self.growth.iter().filter(|sizes| !GROWTH.keeps_floor(spread(&library_times(sizes))));
        let growth = missed.map(|sizes| format!("{} grows with the rows", sizes[0].case.name()));
        let missed = self.footprints.iter().filter(|(_, footprint)| !footprint.keeps_stack_floor());
        let stack = missed.map(|(call, _)| format!("{call} takes too much stack"));
        times.chain(growth).chain(stack).collect()
    }
}

/// What the library takes for a unit, by size.
pub fn library_times(sizes: &[Measured]) -> Vec<f64> {
    sizes.iter().map(|size| size.per_unit(size.times.library)).collect()
}

/// What the reference takes for a unit, by size.
pub fn reference_times(sizes: &[Measured]) -> Vec<f64> {
    sizes.iter().map(|size| size.per_unit(size.times.other)).collect()
}

/// The largest time by the smallest.
pub fn spread(times: &[f64]) -> f64 {
    let largest = times.iter().copied().fold(f64::MIN, f64::max);
    let smallest = times.iter().copied().fold(f64::MAX, f64::min);
    largest / smallest
}

/// Measures cases in passes over all of them, so that the quickest time of each is one of many over the whole run:
/// there are stretches of seconds in which everything takes longer.
pub fn measure(cases: &[Case], budget: Budget) -> Outcome<Vec<Measured>> {
    let pass = || cases.iter().map(|case| case.measure(budget)).collect::<Outcome<Vec<_>>>();
    let mut least = pass()?;
    for _ in 1..budget.passes {
        least = least.into_iter().zip(pass()?).map(|(least, again)| least.least(again)).collect();
    }
    Ok(least)
}

#[cfg(test)]
mod tests {
    use super::*;
    use crate::footprint::STACK_FLOOR;
    use crate::timing::Times;
    use std::time::Duration;

    /// What a run finds if the library takes so long for each call but those on one context, and for a growing one as
    /// long as its rows say and so much more a row for the most rows.
    fn found(library: Duration, growth: f64, stack: usize) -> Found {
        let other = Duration::from_millis(100);
        let measured = |case: Case| {
            let library = if case.name() == case.on_one_context().name() { other / 2 } else { library };
            Measured { case, times: Times { library, other }, units: 1, unit: "row" }
        };
        let calls = plan::all().into_iter().map(measured).collect();
        let growing = |case: Case, by: f64| Measured {
            case,
            times: Times { library: Duration::from_secs_f64(by), other },
            units: 1,
            unit: "row",
        };
        let growth = [Call::Check, Call::Fill].map(|call| {
            let [least, .., most] = plan::growing(call);
            vec![growing(least, 1.0), growing(most, growth)]
        });
        let footprints = BTreeMap::from([("check", Footprint { stack, allocations: 0 })]);
        Found { budget: Budget::SHORT, calls, growth, reading: vec![], footprints }
    }

    #[test]
    fn every_floor_that_is_missed_is_told() {
        let missed = |library, growth, stack| found(Duration::from_millis(library), growth, stack).missed_floors();
        assert_eq!(missed(40, 1.3, STACK_FLOOR - 1), Vec::<String>::new());
        assert_eq!(missed(41, 1.3, STACK_FLOOR - 1), ["check:oob takes too long", "fill:oob takes too long"]);
        assert_eq!(missed(56, 1.3, STACK_FLOOR - 1).len(), 6);
        assert_eq!(missed(71, 1.3, STACK_FLOOR - 1).len(), 8);
        assert_eq!(missed(76, 1.3, STACK_FLOOR - 1).len(), 12);
        assert_eq!(missed(1_601, 1.3, STACK_FLOOR - 1).len(), 14);
        assert_eq!(
            missed(40, 1.31, STACK_FLOOR - 1),
            ["check:block grows with the rows", "fill:block grows with the rows"]
        );
        assert_eq!(missed(40, 1.3, STACK_FLOOR), ["check takes too much stack"]);
    }

    #[test]
    fn the_spread_is_the_largest_by_the_smallest() {
        assert_eq!(spread(&[2.0, 4.0, 3.0]), 2.0);
        assert_eq!(spread(&[5.0]), 1.0);
    }
}

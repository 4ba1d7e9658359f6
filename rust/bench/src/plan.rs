//! What is measured: each call on its inputs, with the floor that it must keep and the target that it should reach.

use reference::MAX_ROWS;

use crate::bounds::Bounds;
use crate::call::Call;
use crate::case::{Beside, By, Case};
use crate::input::{FIRST_CONTEXT, Input, MOST_IN_BOUNDS};

/// One context, a full trace.
const ONE: Input = Input::One { rows: MAX_ROWS };
/// Programs that stay in bounds, as blocks have them.
const PROGRAMS: [Input; 3] = [ONE, Input::Interleaved, Input::Block { rows: MAX_ROWS }];
/// As many contexts as instructions.
const MANY_CONTEXTS: [Input; 2] = [Input::Rising, Input::Falling];
/// Lists that are read to their end and refused.
const LONGEST_LISTS: [Input; 2] = [Input::MostBytes, Input::LongestLines];
/// The number of the last instruction of a full trace in bounds.
const LAST: u64 = MOST_IN_BOUNDS as u64;

/// A check of a program, by the reference's.
const CHECK: Bounds = Bounds { floor: 0.55, target: 0.4 };
/// A fill of a program, by the reference's.
const FILL: Bounds = Bounds { floor: 0.55, target: 0.35 };
/// A check or a fill of instructions out of bounds, by the reference's.
const OUT_OF_BOUNDS: Bounds = Bounds { floor: 0.4, target: 0.25 };
/// A reading of a list, by the reference's.
const READING: Bounds = Bounds { floor: 0.7, target: 0.45 };
/// A check or a fill of contexts in random order, by the reference's.
const MIXED: Bounds = Bounds { floor: 16.0, target: 8.0 };
/// A check or a fill of as many contexts as instructions, by the library's own of one context.
const MANY: Bounds = Bounds { floor: 1.5, target: 1.1 };
/// The most time that a row of growing traces takes, by the least.
pub const GROWTH: Bounds = Bounds { floor: 1.3, target: 1.15 };
/// The rows of the traces by which growth is seen.
pub const GROWING_ROWS: [usize; 4] = [1_000, 4_000, 16_000, MAX_ROWS];

/// All that is measured beside the reference, but for growth.
pub fn all() -> Vec<Case> {
    let mut cases = Vec::new();
    cases.extend(on_traces(Call::Check, CHECK));
    cases.extend(on_traces(Call::Fill, FILL));
    cases.extend(LONGEST_LISTS.map(|input| bounded(Call::Fill, input, By::Reference, READING)));
    cases.push(Case::new(Call::LastState { cn: FIRST_CONTEXT, limit: u64::MAX }, Input::FarBack));
    let on_one = |call| Case::new(call, ONE);
    cases.extend([Call::Rows { k: LAST }, Call::Claim { k: LAST }, Call::Open, Call::Walk].map(on_one));
    cases
}

fn bounded(call: Call, input: Input, by: By, bounds: Bounds) -> Case {
    Case { bounds: Some((by, bounds)), ..Case::new(call, input) }
}

/// A call on every kind of trace, with its bounds on programs.
fn on_traces(call: Call, on_programs: Bounds) -> impl Iterator<Item = Case> {
    let by_reference = move |input, bounds| bounded(call, input, By::Reference, bounds);
    let programs = PROGRAMS.map(|input| by_reference(input, on_programs));
    let others = [by_reference(Input::OutOfBounds, OUT_OF_BOUNDS), by_reference(Input::Mixed, MIXED)];
    let many = MANY_CONTEXTS.map(|input| bounded(call, input, By::OneContext, MANY));
    programs.into_iter().chain(others).chain(many)
}

/// A call on blocks of calls with more and more rows. Of each size there are as many blocks as have about the rows of a
/// full trace together: a single short one, called again and again, would be found in the nearest cache, with every
/// branch foreseen.
pub fn growing(call: Call) -> [Case; GROWING_ROWS.len()] {
    GROWING_ROWS.map(|rows| {
        let inputs = (MAX_ROWS / rows) as u64;
        Case { inputs, ..Case::new(call, Input::Block { rows }) }
    })
}

/// Check and fill beside the least that any of the two could do with a trace.
pub fn beside_reading() -> [Case; 2] {
    [Call::Check, Call::Fill].map(|call| Case { beside: Beside::Reading, ..Case::new(call, ONE) })
}

#[cfg(test)]
mod tests {
    use super::*;

    /// The floor and the target of a case, and what they go by.
    fn bounds(name: &str) -> Option<(By, f64, f64)> {
        let case = all().into_iter().find(|case| case.name() == name).expect("there is such a case");
        case.bounds.map(|(by, Bounds { floor, target })| (by, floor, target))
    }

    #[test]
    fn bounds_of_check_and_fill() {
        for input in ["one", "64", "block"] {
            assert_eq!(bounds(&format!("check:{input}")), Some((By::Reference, 0.55, 0.4)));
            assert_eq!(bounds(&format!("fill:{input}")), Some((By::Reference, 0.55, 0.35)));
        }
        for call in ["check", "fill"] {
            assert_eq!(bounds(&format!("{call}:oob")), Some((By::Reference, 0.4, 0.25)));
            assert_eq!(bounds(&format!("{call}:mixed")), Some((By::Reference, 16.0, 8.0)));
            for input in ["rising", "falling"] {
                assert_eq!(bounds(&format!("{call}:{input}")), Some((By::OneContext, 1.5, 1.1)));
            }
        }
        for input in ["usual", "longest"] {
            assert_eq!(bounds(&format!("fill:{input}")), Some((By::Reference, 0.7, 0.45)));
        }
        assert_eq!(bounds("walk:one"), None);
    }

    #[test]
    fn what_a_bound_goes_by_is_measured_too() {
        let names: Vec<String> = all().iter().map(Case::name).collect();
        for case in all() {
            assert!(names.contains(&case.on_one_context().name()) || case.bounds.is_none(), "{}", case.name());
        }
    }

    #[test]
    fn growth_is_seen_on_blocks_of_calls() {
        for call in [Call::Check, Call::Fill] {
            assert!(growing(call).iter().all(|case| case.input.names().0 == "block"));
            assert_eq!(growing(call).map(|case| case.inputs), [65, 16, 4, 1]);
        }
        assert_eq!((GROWTH.floor, GROWTH.target), (1.3, 1.15));
    }
}

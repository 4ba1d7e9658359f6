//! How anything is timed: two sides in turn on the same bytes, in several passes, and the quickest time of each counts.

use std::hint::black_box;
use std::time::{Duration, Instant};

/// How long measuring goes on.
#[derive(Clone, Copy)]
pub struct Budget {
    /// How often all that is measured is gone through.
    pub passes: u32,
    /// In each pass, at least so long for each measurement,
    pub time: Duration,
    /// and at least so many rounds, however long they take.
    pub rounds: u32,
}

impl Budget {
    /// Enough to see that all of it runs, and about how fast.
    pub const SHORT: Budget = Budget { passes: 1, time: Duration::from_millis(50), rounds: 2 };
    /// Enough for numbers that are kept.
    pub const FULL: Budget = Budget { passes: 12, time: Duration::from_millis(250), rounds: 2 };
}

/// The least times of the two sides.
#[derive(Clone, Copy, Debug, PartialEq, Eq)]
pub struct Times {
    /// The library's.
    pub library: Duration,
    /// That of what it is measured beside.
    pub other: Duration,
}

impl Times {
    /// Longer than any time that is measured.
    const NONE: Times = Times { library: Duration::MAX, other: Duration::MAX };

    /// The lesser time of each side.
    pub fn least(self, with: Times) -> Times {
        Times { library: self.library.min(with.library), other: self.other.min(with.other) }
    }
}

/// Calls both sides in every round, so that what else goes on meets both, with the other one first in every second
/// round, so that neither always finds what its counterpart has left in the cache. Both work on the same bytes.
pub fn quickest<T>(
    budget: Budget,
    lent: &mut T,
    mut library: impl FnMut(&mut T),
    mut other: impl FnMut(&mut T),
) -> Times {
    let start = Instant::now();
    let mut times = Times::NONE;
    let mut round = 0;
    while round < budget.rounds || start.elapsed() < budget.time {
        let other_first = round % 2 == 1;
        if other_first {
            times.other = time_of(lent, &mut other).min(times.other);
        }
        times.library = time_of(lent, &mut library).min(times.library);
        if !other_first {
            times.other = time_of(lent, &mut other).min(times.other);
        }
        round += 1;
    }
    times
}

fn time_of<T>(lent: &mut T, call: &mut impl FnMut(&mut T)) -> Duration {
    let before = Instant::now();
    call(black_box(lent));
    before.elapsed()
}

#[cfg(test)]
mod tests {
    use super::*;

    /// The sides in the order in which they were called.
    fn calls(budget: Budget) -> String {
        let mut calls = String::new();
        quickest(budget, &mut calls, |calls| calls.push('l'), |calls| calls.push('o'));
        calls
    }

    #[test]
    fn sides_are_called_in_turn_and_take_turns_to_be_first() {
        assert_eq!(calls(Budget { passes: 1, time: Duration::ZERO, rounds: 4 }), "loollool");
    }

    #[test]
    fn measuring_goes_on_for_the_time_that_is_given() {
        let budget = Budget { passes: 1, time: Duration::from_millis(5), rounds: 0 };
        let start = Instant::now();
        assert!(!calls(budget).is_empty());
        assert!(start.elapsed() >= budget.time);
    }

    #[test]
    fn the_quicker_time_of_each_side_counts() {
        let slow = Duration::from_millis(100);
        let mut waits = [slow, Duration::ZERO].into_iter().cycle();
        let budget = Budget { passes: 1, time: Duration::ZERO, rounds: 2 };
        let times = quickest(
            budget,
            &mut waits,
            |waits| std::thread::sleep(waits.next().unwrap_or(slow)),
            |_| std::thread::sleep(slow),
        );
        assert!(times.library < slow && times.other >= slow, "{times:?}");
        let other = Times { library: slow, other: Duration::ZERO };
        assert_eq!(times.least(other), Times { library: times.library, other: Duration::ZERO });
    }
}

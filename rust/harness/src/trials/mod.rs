//! Random traces, lists and crowds of contexts, each from a seed of its own, put to the library and the reference.

pub mod cast;
pub mod crowds;
pub mod damage;
pub mod forgery;
pub mod list_damage;
pub mod list_story;
pub mod lists;
pub mod meetings;
pub mod misplacement;
pub mod questions;
pub mod random;
pub mod remade;
pub mod story;
mod summary;
pub mod tally;
pub mod traces;

use std::num::NonZero;
use std::ops::Range;
use std::panic::resume_unwind;
use std::thread;

use crate::Outcome;
use crate::options::Trials;
use random::Random;
use tally::Tally;

/// Compares on what a generator makes, and enters what it met.
type Trial = fn(&mut Random, &mut Tally) -> Outcome<()>;

/// Compares on so many traces, lists and crowds with seeds from `seed` on, in as many threads as the machine runs at a
/// time. What was met must be enough to show something.
pub fn compare_all(trials: Trials, seed: u64) -> Outcome<Tally> {
    let Trials { traces, lists, crowds } = trials;
    let threads = thread::available_parallelism().map_or(1, NonZero::get);
    let mut tally = Tally::default();
    let kinds: [(u64, Trial, &str, &str); 3] = [
        (traces, traces::compare_one, "trace", "--traces 1 --lists 0 --crowds 0"),
        (lists, lists::compare_one, "list", "--traces 0 --lists 1 --crowds 0"),
        (crowds, crowds::compare_one, "crowd", "--traces 0 --lists 0 --crowds 1"),
    ];
    for (count, trial, what, options) in kinds {
        let told = |(seed, error)| format!("random {what}, again with --seed {seed} {options}: {error}");
        tally.add(over_seeds(seed, count, threads, trial).map_err(told)?);
    }
    tally.enough(trials)?;
    Ok(tally)
}

/// A seed and what went wrong with it.
type Failure = (u64, String);

/// Tries `count` seeds from `first` on. Each thread takes a part of them in order and stops at its first failure, so the
/// answer is that of the lowest seed that fails, and what was met does not depend on the number of threads either.
fn over_seeds(first: u64, count: u64, threads: usize, trial: Trial) -> Result<Tally, Failure> {
    let parts: Vec<Result<Tally, Failure>> = thread::scope(|scope| {
        let spawn = |part: Range<u64>| scope.spawn(move || over_part(first, part, trial));
        let running: Vec<_> = parts_of(count, threads as u64).map(spawn).collect();
        running.into_iter().map(|thread| thread.join().unwrap_or_else(|panic| resume_unwind(panic))).collect()
    });
    parts.into_iter().try_fold(Tally::default(), |mut sum, part| {
        sum.add(part?);
        Ok(sum)
    })
}

/// The numbers below `count` in parts of about the same length, one after another.
fn parts_of(count: u64, parts: u64) -> impl Iterator<Item = Range<u64>> {
    let start = move |part: u64| count / parts * part + part.min(count % parts);
    (0..parts).map(move |part| start(part)..start(part + 1))
}

fn over_part(first: u64, part: Range<u64>, trial: Trial) -> Result<Tally, Failure> {
    let mut tally = Tally::default();
    for seed in part.map(|place| first.wrapping_add(place)) {
        trial(&mut Random::new(seed), &mut tally).map_err(|error| (seed, error))?;
    }
    Ok(tally)
}

#[cfg(test)]
mod tests {
    use super::*;

    #[test]
    fn what_is_met_does_not_depend_on_the_number_of_threads() {
        for (trial, count) in [(traces::compare_one as Trial, 50), (lists::compare_one, 50), (crowds::compare_one, 5)] {
            let [alone, two, seven] = [1, 2, 7].map(|threads| over_seeds(u64::MAX - 20, count, threads, trial));
            assert!(alone.is_ok());
            assert!(alone == two && two == seven);
        }
    }

    #[test]
    fn the_lowest_seed_that_fails_is_told_by_any_number_of_threads() {
        let failing: Trial = |random, _| if random.once_in(8) { Err("once in 8".into()) } else { Ok(()) };
        let lowest = (5..105).find(|&seed| Random::new(seed).once_in(8)).expect("one of 100 seeds fails");
        for threads in [1, 2, 3, 100, 101] {
            assert_eq!(over_seeds(5, 100, threads, failing), Err((lowest, "once in 8".into())));
        }
    }

    #[test]
    fn parts_are_in_order_and_miss_nothing() {
        for (count, parts) in [(0, 1), (1, 2), (10, 3), (100_000, 7), (u64::MAX, 4)] {
            let parts: Vec<Range<u64>> = parts_of(count, parts).collect();
            assert_eq!((parts[0].start, parts[parts.len() - 1].end), (0, count));
            assert!(parts.windows(2).all(|pair| pair[0].end == pair[1].start));
        }
    }
}

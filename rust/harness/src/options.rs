//! The command line of `full`.

use std::fmt;
use std::path::PathBuf;

use crate::Outcome;

/// How many random traces, lists and crowds there are if nothing else is said.
pub const DEFAULT_TRIALS: Trials = Trials { traces: 100_000, lists: 100_000, crowds: 250 };

/// The seed of the first trace, list and crowd if nothing else is said.
const DEFAULT_SEED: u64 = 1;
const MILLION: u64 = 1_000_000;
/// There is one crowd to so many traces where these are told in millions.
const TRACES_TO_A_CROWD: u64 = DEFAULT_TRIALS.traces / DEFAULT_TRIALS.crowds;

fn usage() -> String {
    let Trials { traces, lists, crowds } = DEFAULT_TRIALS;
    format!(
        "\
usage: full TRACE_VECTORS LIST_VECTORS ACCOUNT_VECTORS [--traces N] [--lists N] [--crowds N] [--millions N] [--seed S]
  --traces N    so many random traces ({traces})
  --lists N     so many random lists ({lists})
  --crowds N    so many random lists of many contexts ({crowds})
  --millions N  so many million random traces and as many random lists, and crowds in proportion
  --seed S      seeds S, S+1 and so on, one for each trace, each list and each crowd ({DEFAULT_SEED})"
    )
}

/// How many random trials there are of each kind.
#[derive(Clone, Copy, Debug, PartialEq, Eq)]
pub struct Trials {
    /// Traces to put to all calls over a trace.
    pub traces: u64,
    /// Lists to fill traces from.
    pub lists: u64,
    /// Lists of many contexts.
    pub crowds: u64,
}

impl Trials {
    /// The part of the default number of trials that there are of the kind of which there are fewest; at most all.
    pub fn of_default(&self) -> f64 {
        let Trials { traces, lists, crowds } = DEFAULT_TRIALS;
        let parts = [(self.traces, traces), (self.lists, lists), (self.crowds, crowds)];
        parts.iter().map(|&(count, of)| count as f64 / of as f64).fold(1.0, f64::min)
    }
}

impl fmt::Display for Trials {
    fn fmt(&self, out: &mut fmt::Formatter<'_>) -> fmt::Result {
        let Trials { traces, lists, crowds } = self;
        write!(out, "{traces} traces, {lists} lists and {crowds} crowds of contexts")
    }
}

/// What to compare.
#[derive(Debug, PartialEq, Eq)]
pub struct Options {
    /// The folder of the vectors that are traces.
    pub trace_vectors: PathBuf,
    /// The folder of the vectors that are lists.
    pub list_vectors: PathBuf,
    /// The folder of the vectors of `account`, which are lists too.
    pub account_vectors: PathBuf,
    /// How many random trials there are.
    pub trials: Trials,
    /// The seed of the first trace, list and crowd; the next has the next.
    pub seed: u64,
}

impl Options {
    /// The options that the words of a command line say.
    pub fn read(mut words: impl Iterator<Item = String>) -> Outcome<Options> {
        let mut folder = || words.next().map(PathBuf::from).ok_or_else(usage);
        let (trace_vectors, list_vectors, account_vectors) = (folder()?, folder()?, folder()?);
        let (trials, seed) = (DEFAULT_TRIALS, DEFAULT_SEED);
        let mut options = Options { trace_vectors, list_vectors, account_vectors, trials, seed };
        while let Some(word) = words.next() {
            let number = words.next().and_then(|number| number.parse().ok());
            let number: u64 = number.ok_or_else(|| format!("{word} needs a number\n{}", usage()))?;
            match word.as_str() {
                "--traces" => options.trials.traces = number,
                "--lists" => options.trials.lists = number,
                "--crowds" => options.trials.crowds = number,
                "--millions" => {
                    let count = number.checked_mul(MILLION);
                    let count = count.ok_or_else(|| format!("{number} millions are too many\n{}", usage()))?;
                    options.trials = Trials { traces: count, lists: count, crowds: count / TRACES_TO_A_CROWD };
                }
                "--seed" => options.seed = number,
                _ => return Err(format!("{word} is no option\n{}", usage())),
            }
        }
        Ok(options)
    }
}

#[cfg(test)]
mod tests {
    use super::*;

    fn read(line: &str) -> Outcome<Options> {
        Options::read(line.split_whitespace().map(String::from))
    }

    /// Traces, lists, crowds and seed after three folders and some words.
    fn numbers(words: &str) -> Outcome<(u64, u64, u64, u64)> {
        let numbers = |Options { trials, seed, .. }| (trials.traces, trials.lists, trials.crowds, seed);
        read(&format!("a b c {words}")).map(numbers)
    }

    #[test]
    fn options_have_their_numbers() {
        assert_eq!(numbers(""), Ok((100_000, 100_000, 250, DEFAULT_SEED)));
        assert_eq!(numbers("--seed 7 --traces 2 --lists 0 --crowds 1"), Ok((2, 0, 1, 7)));
        assert_eq!(numbers("--millions 3"), Ok((3_000_000, 3_000_000, 7_500, DEFAULT_SEED)));
        assert_eq!(numbers("--millions 3 --lists 5"), Ok((3_000_000, 5, 7_500, DEFAULT_SEED)));
        assert_eq!(numbers(&format!("--seed {}", u64::MAX)), Ok((100_000, 100_000, 250, u64::MAX)));
    }

    #[test]
    fn the_kind_with_the_fewest_trials_counts() {
        assert_eq!(DEFAULT_TRIALS.of_default(), 1.0);
        assert_eq!(Trials { traces: u64::MAX, lists: u64::MAX, crowds: u64::MAX }.of_default(), 1.0);
        assert_eq!(Trials { crowds: 125, ..DEFAULT_TRIALS }.of_default(), 0.5);
        assert_eq!(Trials { lists: 25_000, crowds: 125, ..DEFAULT_TRIALS }.of_default(), 0.25);
        assert_eq!(Trials { traces: 0, ..DEFAULT_TRIALS }.of_default(), 0.0);
    }

    #[test]
    fn folders_come_first_and_are_three() {
        let Options { trace_vectors, list_vectors, account_vectors, .. } = read("a b c").expect("three folders");
        assert_eq!([trace_vectors, list_vectors, account_vectors], ["a", "b", "c"].map(PathBuf::from));
        assert_eq!(read("a b"), Err(usage()));
        assert_eq!(read(""), Err(usage()));
    }

    #[test]
    fn other_words_are_refused() {
        for words in ["--traces", "--traces x", "--lists -1", "--seed 18446744073709551616", "--fast 1", "d e"] {
            assert!(numbers(words).is_err(), "{words}");
        }
        assert!(numbers("--millions 18446744073710").is_err_and(|message| message.contains("too many")));
    }
}

//! The command line of `bench`.

use std::num::NonZeroU32;
use std::path::PathBuf;

use crate::Outcome;
use crate::case::Case;
use crate::plan;

const USAGE: &str = "\
usage: bench [--short] [CASE...]    measures and prints a table, of some cases or of everything
       bench --record FILE          measures everything and keeps it in FILE if all floors are kept
       bench --repeat N CASE        calls both sides N times and measures nothing, for a profiler";

/// What to do.
#[derive(Debug)]
pub enum Options {
    /// Measure everything.
    Everything {
        /// With less time for each.
        short: bool,
    },
    /// Measure some cases.
    Cases {
        /// With less time for each.
        short: bool,
        /// The cases.
        cases: Vec<Case>,
    },
    /// Measure everything and keep it.
    Record {
        /// The file with the measured part.
        file: PathBuf,
    },
    /// Call both sides.
    Repeat {
        /// So often.
        times: NonZeroU32,
        /// For this case.
        case: Case,
    },
}

impl Options {
    /// The options that the words of a command line say.
    pub fn read(words: impl Iterator<Item = String>) -> Outcome<Options> {
        let words: Vec<String> = words.collect();
        let words: Vec<&str> = words.iter().map(String::as_str).collect();
        match words[..] {
            ["--record", file] if !file.starts_with("--") => Ok(Options::Record { file: file.into() }),
            ["--repeat", times, name] => {
                let times = times.parse().map_err(|_| format!("{times} is no count from 1 on\n{USAGE}"))?;
                Ok(Options::Repeat { times, case: case_named(name)? })
            }
            ["--short", ref names @ ..] => measure(true, names),
            ref names => measure(false, names),
        }
    }
}

fn measure(short: bool, names: &[&str]) -> Outcome<Options> {
    if names.is_empty() {
        return Ok(Options::Everything { short });
    }
    let cases = names.iter().map(|name| case_named(name)).collect::<Outcome<_>>()?;
    Ok(Options::Cases { short, cases })
}

fn case_named(name: &str) -> Outcome<Case> {
    let cases = plan::all();
    let names: Vec<String> = cases.iter().map(Case::name).collect();
    let found = cases.into_iter().find(|case| case.name() == name);
    found.ok_or_else(|| format!("{name} is no case and no option\n{USAGE}\ncases: {}", names.join(" ")))
}

#[cfg(test)]
mod tests {
    use super::*;
    use std::collections::HashSet;

    fn read(line: &str) -> Outcome<Options> {
        Options::read(line.split_whitespace().map(String::from))
    }

    #[test]
    fn every_case_is_found_by_its_own_name() {
        let names: HashSet<String> = plan::all().iter().map(Case::name).collect();
        assert_eq!(names.len(), plan::all().len());
        assert!(names.iter().all(|name| case_named(name).is_ok_and(|case| case.name() == *name)));
    }

    #[test]
    fn command_lines_say_what_to_do() {
        assert!(matches!(read(""), Ok(Options::Everything { short: false })));
        assert!(matches!(read("--short"), Ok(Options::Everything { short: true })));
        assert!(matches!(read("--short check:one"), Ok(Options::Cases { short: true, cases }) if cases.len() == 1));
        assert!(matches!(read("check:one fill:oob"), Ok(Options::Cases { short: false, cases }) if cases.len() == 2));
        assert!(matches!(read("--record kept.md"), Ok(Options::Record { file }) if file.as_os_str() == "kept.md"));
        assert!(matches!(read("--repeat 3 walk:one"), Ok(Options::Repeat { times, .. }) if times.get() == 3));
    }

    #[test]
    fn other_command_lines_are_refused_with_the_usage() {
        for line in ["--record", "--record --short", "--record a b", "--repeat", "--repeat 3", "--repeat 0 check:one"] {
            assert!(read(line).is_err_and(|error| error.contains(USAGE)), "{line}");
        }
        for line in [
            "--short --record a",
            "--help",
            "check",
            "check:one --short",
            "--repeat 3 check:two",
            "--repeat -1 check:one",
        ] {
            assert!(read(line).is_err_and(|error| error.contains(USAGE)), "{line}");
        }
    }
}

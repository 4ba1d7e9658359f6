//! `bench`: measures the library beside the reference in one run, and the memory that the library's calls take. It ends
//! with a message and another status than 0 if an answer is wrong, memory is asked for, or a floor is not kept by what
//! was to be recorded.

mod block;
mod bounds;
mod call;
mod case;
mod footprint;
mod heap;
mod input;
mod machine;
mod options;
mod plan;
mod program;
mod random;
mod record;
mod report;
mod run;
mod stack;
mod timing;

use std::num::NonZeroU32;
use std::path::Path;
use std::process::ExitCode;

use case::Case;
use options::Options;
use record::Record;
use run::Found;
use timing::Budget;

/// What goes wrong is told in words and ends the run.
type Outcome<T> = Result<T, String>;

fn main() -> ExitCode {
    let done = Options::read(std::env::args().skip(1)).and_then(|options| match options {
        Options::Everything { short } => {
            Found::measure(budget(short)).map(|found| print!("{}", report::everything(&found)))
        }
        Options::Cases { short, cases } => {
            run::measure(&cases, budget(short)).map(|found| print!("{}", report::calls(&found)))
        }
        Options::Record { file } => keep(&file),
        Options::Repeat { times, case } => repeat(times, &case),
    });
    match done {
        Ok(()) => ExitCode::SUCCESS,
        Err(message) => {
            eprintln!("bench: FAILED: {message}");
            ExitCode::FAILURE
        }
    }
}

fn budget(short: bool) -> Budget {
    if short { Budget::SHORT } else { Budget::FULL }
}

/// Measures everything, and keeps it in a file if all floors are kept.
fn keep(file: &Path) -> Outcome<()> {
    let record = Record::open(file)?;
    let found = Found::measure(Budget::FULL)?;
    let measured = report::everything(&found);
    print!("{measured}");
    match &found.missed_floors()[..] {
        [] => record.write(&measured),
        missed => Err(format!("nothing is recorded: {}", missed.join(", "))),
    }
}

/// Calls both sides so often and says on how much; the first answers are compared.
fn repeat(times: NonZeroU32, case: &Case) -> Outcome<()> {
    let mut lent = case.lent()?;
    let answer = case.agreed(&mut lent)?;
    for _ in 1..times.get() {
        case.call_library(&mut lent);
        case.call_other(&mut lent);
    }
    let (units, unit) = case.units(&lent, &answer);
    println!("{times} calls of each side, on {units} {unit}s");
    Ok(())
}

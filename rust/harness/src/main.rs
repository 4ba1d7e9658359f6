//! `full`: compares the library with the reference, its checker and its calls over a trace on traces, its filler on
//! lists, at full size, on the vectors and at random. It ends with a message and another status than 0 at the first
//! difference, and if what was met at random shows too little.

mod check;
mod fill;
mod library;
mod margins;
mod options;
mod trace_calls;
mod trials;

use std::process::ExitCode;

use options::Options;

/// What goes wrong is told in words and ends the run.
type Outcome<T> = Result<T, String>;

fn main() -> ExitCode {
    match Options::read(std::env::args().skip(1)).and_then(|options| run(&options)) {
        Ok(()) => ExitCode::SUCCESS,
        Err(message) => {
            eprintln!("full: FAILED: {message}");
            ExitCode::FAILURE
        }
    }
}

fn run(options: &Options) -> Outcome<()> {
    let Options { trace_vectors, list_vectors, account_vectors, trials, seed } = options;
    println!("full size: {} traces as meant", check::full_size::compare_all()?);
    println!("check sweeps: {} traces as meant", check::sweeps::compare_all()?);
    println!("vectors: {} answers agree", check::vector_files::compare_all(trace_vectors)?);
    println!("list vectors: {} lists as expected", fill::vector_files::compare_expected(list_vectors)?);
    println!("account vectors: {} lists agree", fill::vector_files::compare_lists(account_vectors)?);
    println!("fill sweeps: {} calls agree", fill::sweeps::compare_all()?);
    println!("fill refusals: {} calls as meant", fill::refusals::compare_all()?);
    println!("full-size fills: {} calls as meant", fill::full_size::compare_all()?);
    println!("call refusals: {} answers as meant", trace_calls::refusals::compare_all()?);
    println!("call scenes: {} answers as meant", trace_calls::scenes::compare_all()?);
    println!("call sweeps: {} answers as meant", trace_calls::sweeps::compare_all()?);
    println!("call vectors: {} answers agree", trace_calls::vector_files::compare_all(trace_vectors)?);
    println!("full-size calls: {} answers as meant", trace_calls::full_size::compare_all()?);
    println!("random: {trials} agree\n{}", trials::compare_all(*trials, *seed)?);
    Ok(())
}

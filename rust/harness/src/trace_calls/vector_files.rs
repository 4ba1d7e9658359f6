//! The vectors of a folder put to all calls over a trace.

use std::path::Path;

use crate::Outcome;
use crate::check::vector_files::for_each_trace;
use crate::trace_calls::everything;

/// Compares on every vector of a folder; answers how many answers there were.
pub fn compare_all(folder: &Path) -> Outcome<usize> {
    let mut answers = 0;
    for_each_trace(folder, |trace| {
        answers += everything::compare(trace)?;
        Ok(())
    })?;
    Ok(answers)
}

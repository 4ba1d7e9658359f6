//! The vectors of a folder put to both checkers. They are compared without `verify`'s bound on its input, which the
//! library has not.

use std::fs;
use std::path::{Path, PathBuf};

use crate::Outcome;
use crate::check::compare::compare;

/// Compares on every vector of a folder; answers how many there are.
pub fn compare_all(folder: &Path) -> Outcome<usize> {
    let mut answers = 0;
    for_each_trace(folder, |trace| {
        answers += 1;
        compare(trace).map(drop)
    })?;
    Ok(answers)
}

/// Does something with every vector of a folder, which must hold some.
pub fn for_each_trace(folder: &Path, mut act: impl FnMut(&[u8]) -> Outcome<()>) -> Outcome<()> {
    let files = traces_in(folder).map_err(|error| format!("{}: {error}", folder.display()))?;
    if files.is_empty() {
        return Err(format!("{} holds no vectors", folder.display()));
    }
    for file in &files {
        let told = |error: &dyn std::fmt::Display| format!("vector {}: {error}", file.display());
        let trace = fs::read(file).map_err(|error| told(&error))?;
        act(&trace).map_err(|error| told(&error))?;
    }
    Ok(())
}

fn traces_in(folder: &Path) -> std::io::Result<Vec<PathBuf>> {
    let mut files = Vec::new();
    for entry in fs::read_dir(folder)? {
        let path = entry?.path();
        if path.extension().is_some_and(|extension| extension == "trace") {
            files.push(path);
        }
    }
    files.sort();
    Ok(files)
}

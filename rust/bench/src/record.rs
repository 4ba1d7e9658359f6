//! The kept table: the text between two marker lines of a file, which a recording run rewrites.

use std::fs;
use std::path::{Path, PathBuf};

use crate::Outcome;

/// The line after which the measured part begins.
const BEGIN: &str = "<!-- measured part: begin -->\n";
/// The line before which it ends.
const END: &str = "<!-- measured part: end -->\n";

/// A file with a measured part, and what stands around that part.
#[derive(Debug, PartialEq, Eq)]
pub struct Record {
    path: PathBuf,
    before: String,
    after: String,
}

impl Record {
    /// Reads a file, which must have both marker lines once and in order.
    pub fn open(path: &Path) -> Outcome<Record> {
        let text = fs::read_to_string(path).map_err(|error| format!("{}: {error}", path.display()))?;
        let (before, after) = around(&text).ok_or_else(|| format!("{}: {NO_MARKERS}", path.display()))?;
        Ok(Record { path: path.into(), before: before.into(), after: after.into() })
    }

    /// Writes the file with another measured part.
    pub fn write(&self, measured: &str) -> Outcome<()> {
        let Record { path, before, after } = self;
        let text = format!("{before}{BEGIN}\n{measured}\n{END}{after}");
        fs::write(path, text).map_err(|error| format!("{}: {error}", path.display()))
    }
}

const NO_MARKERS: &str = "the two marker lines of the measured part must stand in it, each once and in order";

/// What stands before the first marker line and after the second.
fn around(text: &str) -> Option<(&str, &str)> {
    let (before, rest) = text.split_once(BEGIN)?;
    let (measured, after) = rest.split_once(END)?;
    let is_whole = before.is_empty() || before.ends_with('\n');
    let once = [before, measured, after].iter().all(|part| !part.contains(BEGIN) && !part.contains(END));
    (is_whole && once).then_some((before, after))
}

#[cfg(test)]
mod tests {
    use super::*;

    #[test]
    fn what_stands_around_the_measured_part_is_found() {
        let text = format!("head\n{BEGIN}old\n{END}tail");
        assert_eq!(around(&text), Some(("head\n", "tail")));
        assert_eq!(around(&format!("{BEGIN}{END}")), Some(("", "")));
    }

    #[test]
    fn markers_must_stand_once_and_in_order() {
        for text in [
            String::new(),
            BEGIN.into(),
            END.into(),
            format!("{END}{BEGIN}"),
            format!("{BEGIN}{BEGIN}{END}"),
            format!("{BEGIN}{END}{END}"),
            format!("{BEGIN}{END}{BEGIN}{END}"),
            format!("head {BEGIN}{END}"),
        ] {
            assert_eq!(around(&text), None, "{text:?}");
        }
    }

    #[test]
    fn a_file_that_is_not_there_is_told() {
        let error = Record::open(Path::new("no such folder/file.md")).expect_err("there is no such file");
        assert!(error.starts_with("no such folder/file.md: "), "{error}");
    }
}

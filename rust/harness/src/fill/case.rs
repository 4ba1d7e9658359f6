//! A list with the answer that its author means it to get.

use reference::{ROW_BYTES, Refusal};

use crate::Outcome;
use crate::fill::filling::{Answer, Order, compare};

/// A call of the filler and its answer: the rows that are written, or a refusal.
pub struct Case {
    name: String,
    list: Vec<u8>,
    empty_rows: u64,
    room: usize,
    meant: Result<usize, Refusal>,
}

impl Case {
    /// A list that fills so many rows, in a buffer of just these.
    pub fn fills(name: impl Into<String>, list: impl Into<Vec<u8>>, empty_rows: u64, rows: usize) -> Case {
        Case { name: name.into(), list: list.into(), empty_rows, room: rows * ROW_BYTES, meant: Ok(rows) }
    }

    /// A list that is refused, in a buffer of so many bytes. `line` is 0 if no line is refused.
    pub fn refused(
        name: impl Into<String>,
        list: impl Into<Vec<u8>>,
        (empty_rows, room): (u64, usize),
        (number, line): (u8, u64),
    ) -> Case {
        Case { name: name.into(), list: list.into(), empty_rows, room, meant: Err(Refusal { number, line }) }
    }

    /// The answer of both fillers, which must be the one that is meant.
    pub fn compare(&self) -> Outcome<Answer> {
        let Case { name, list, empty_rows, room, meant } = self;
        let order = Order { list, behind: &[], empty_rows: *empty_rows, room: *room };
        let answer = compare(&order).map_err(|error| format!("{name}: {error}"))?;
        let found = answer.as_ref().map(|trace| trace.len() / ROW_BYTES);
        if found == meant.as_ref().copied() {
            return Ok(answer);
        }
        Err(format!("{name}: both answer {found:?}, meant is {meant:?}"))
    }
}

/// Compares on each case; answers how many there are.
pub fn compare_cases(cases: impl IntoIterator<Item = Case>) -> Outcome<usize> {
    let mut count = 0;
    for case in cases {
        case.compare().map(drop)?;
        count += 1;
    }
    Ok(count)
}

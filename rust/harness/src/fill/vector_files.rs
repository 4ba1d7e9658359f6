//! The lists of folders put to both fillers, with several counts of empty rows and sizes of the buffer, and what comes
//! of them held against the answers that are kept beside them.

use std::path::Path;

use reference::ROW_BYTES;
use reference::fill::rows_of;

use crate::Outcome;
use crate::fill::case::Case;
use crate::fill::expected::{Expected, expected_in, list_of, lists_in};
use crate::fill::filling::{Order, compare, compare_and_read_back};
use crate::fill::read_back::read_back;
use crate::trace_calls::full_size;

/// The counts of empty rows.
const EMPTY_ROWS: [u64; 4] = [1, 2, 5, 0];
/// More bytes than the longest trace of most lists has.
const LARGE: usize = 50_000;

/// Compares on every list of a folder, each of which must give what is expected of it; answers how many there are.
pub fn compare_expected(folder: &Path) -> Outcome<usize> {
    let expected = expected_in(folder)?;
    for (name, meant) in &expected {
        let told = |error: String| format!("vector {name}: {error}");
        let list = list_of(folder, name).map_err(told)?;
        compare_all_rooms(&list).and_then(|()| as_expected(name, list, meant)).map_err(told)?;
    }
    Ok(expected.len())
}

/// Compares on every list of a folder; answers how many there are.
pub fn compare_lists(folder: &Path) -> Outcome<usize> {
    let names = lists_in(folder)?;
    for name in &names {
        let told = |error: String| format!("vector {name}: {error}");
        let list = list_of(folder, name).map_err(told)?;
        compare_all_rooms(&list).and_then(|()| reads_back(&list)).map_err(told)?;
    }
    Ok(names.len())
}

/// After one empty row a list that is not refused must fill rows from which its claims come back.
fn reads_back(list: &[u8]) -> Outcome<()> {
    let room = rows_of(list, 1).unwrap_or(0) * ROW_BYTES;
    compare_and_read_back(&Order { list, behind: &[], empty_rows: 1, room }).map(drop)
}

/// After one empty row a list must be refused as expected, or fill the rows of its claims, which must come back.
fn as_expected(name: &str, list: Vec<u8>, expected: &Expected) -> Outcome<()> {
    let claims = match expected {
        Ok(claims) => claims,
        Err(refusal) => {
            return Case::refused(name, list, (1, LARGE), (refusal.number, refusal.line)).compare().map(drop);
        }
    };
    let rows = 1 + claims.iter().map(full_size::rows_of).sum::<usize>();
    match Case::fills(name, list, 1, rows).compare()? {
        Ok(trace) => read_back(&trace, claims),
        Err(refusal) => Err(refusal.to_string()),
    }
}

fn compare_all_rooms(list: &[u8]) -> Outcome<()> {
    EMPTY_ROWS.into_iter().try_for_each(|empty_rows| compare_rooms(list, empty_rows).map(drop))
}

/// Compares on a list with buffers of all kinds of sizes; answers how many there are.
pub fn compare_rooms(list: &[u8], empty_rows: u64) -> Outcome<usize> {
    let rooms = rooms_for(list, empty_rows);
    for &room in &rooms {
        compare(&Order { list, behind: &[], empty_rows, room }).map(drop)?;
    }
    Ok(rooms.len())
}

/// No byte and a row; a large buffer; and if there is a trace, just its bytes, one less, one more, and one row more.
fn rooms_for(list: &[u8], empty_rows: u64) -> Vec<usize> {
    let mut rooms = vec![0, ROW_BYTES, LARGE];
    if let Ok(rows) = rows_of(list, empty_rows) {
        let exact = rows * ROW_BYTES;
        rooms.extend([exact - 1, exact, exact + 1, exact + ROW_BYTES, exact + LARGE]);
    }
    rooms
}

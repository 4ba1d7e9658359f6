//! Each refusal of the filler, and the order of two at once. Each case states the refusal that is meant.

use reference::fill::MAX_LIST;
use reference::list_vectors::{FAULTS, PLAIN, lines_of};
use reference::{MAX_ROWS, ROW_BYTES};

use crate::Outcome;
use crate::check::full_size::IN_BOUNDS;
use crate::fill::case::{Case, compare_cases};

/// A buffer that is large enough for any trace.
const FULL: usize = MAX_ROWS * ROW_BYTES;
/// A buffer that is too small for a trace.
const SHORT: usize = ROW_BYTES - 1;
/// A list of so many lines fills more rows than there may be.
const TOO_MANY_LINES: usize = IN_BOUNDS as usize + 1;

/// Compares on every case; answers how many there are.
pub fn compare_all() -> Outcome<usize> {
    let families = [alone, two_calls_at_once, two_lines_at_once, lines_before_rows];
    compare_cases(families.into_iter().flat_map(|family| family()))
}

/// Right lines, one byte more than a list may have.
fn too_long() -> String {
    lines_of(MAX_LIST + 1)
}

/// Each refusal by itself, over a buffer that would be large enough but for the last.
fn alone() -> Vec<Case> {
    let mut cases = vec![
        Case::refused("refusal 1", too_long(), (1, FULL), (1, 0)),
        Case::refused("refusal 2", PLAIN, (0, FULL), (2, 0)),
        Case::refused("refusal 2, no line", "", (0, FULL), (2, 0)),
        Case::refused("refusal 7, lines", PLAIN.repeat(TOO_MANY_LINES), (1, FULL), (7, 0)),
        Case::refused("refusal 7, empty rows", PLAIN, (MAX_ROWS as u64 - 2, FULL), (7, 0)),
        Case::refused("refusal 8", PLAIN, (1, 4 * ROW_BYTES - 1), (8, 0)),
        Case::refused("refusal 8, no byte", PLAIN, (1, 0), (8, 0)),
        Case::refused("refusal 8, no line", "", (1, SHORT), (8, 0)),
    ];
    for (number, fault, _) in FAULTS {
        for before in [0, 1, 100] {
            let list = [&PLAIN.repeat(before), fault, PLAIN].concat();
            let line = before as u64 + 1;
            cases.push(Case::refused(format!("refusal {number} in line {line}"), list, (1, FULL), (number, line)));
        }
    }
    cases
}

/// What the whole call is refused for, before what a line or the rows are.
fn two_calls_at_once() -> Vec<Case> {
    let mut cases = vec![
        Case::refused("1 before 2", too_long(), (0, FULL), (1, 0)),
        Case::refused("1 before 7", too_long(), (u64::MAX, FULL), (1, 0)),
        Case::refused("1 before 8", too_long(), (1, 0), (1, 0)),
        Case::refused("2 before 7", PLAIN.repeat(TOO_MANY_LINES), (0, FULL), (2, 0)),
        Case::refused("2 before 8", PLAIN, (0, 0), (2, 0)),
        Case::refused("7 before 8", PLAIN, (u64::MAX, 0), (7, 0)),
        Case::refused("7 by lines before 8", PLAIN.repeat(TOO_MANY_LINES), (1, SHORT), (7, 0)),
        Case::refused("7 by empty rows alone before 8", "", (MAX_ROWS as u64 + 1, FULL), (7, 0)),
    ];
    for (number, fault, _) in FAULTS {
        cases.push(Case::refused(format!("1 before {number}"), fault.to_owned() + &too_long(), (1, FULL), (1, 0)));
        cases.push(Case::refused(format!("2 before {number}"), fault, (0, FULL), (2, 0)));
    }
    cases
}

/// Each refusal in line 2 before each in line 3.
fn two_lines_at_once() -> Vec<Case> {
    let mut cases = Vec::new();
    for (number, first, _) in FAULTS {
        for (other, second, _) in FAULTS {
            let name = format!("{number} in line 2 before {other} in line 3");
            cases.push(Case::refused(name, [PLAIN, first, second].concat(), (1, FULL), (number, 2)));
        }
    }
    cases
}

/// Each refusal in the last line before too many rows, before a short buffer, and before both.
fn lines_before_rows() -> Vec<Case> {
    let mut cases = Vec::new();
    for (number, fault, _) in FAULTS {
        let few = [PLAIN, fault].concat();
        let many = PLAIN.repeat(TOO_MANY_LINES) + fault;
        let last = TOO_MANY_LINES as u64 + 1;
        let case = |before, list: &str, call, line| {
            Case::refused(format!("{number} in the last line before {before}"), list, call, (number, line))
        };
        cases.push(case("7 by empty rows", &few, (u64::MAX, FULL), 2));
        cases.push(case("8", &few, (1, SHORT), 2));
        cases.push(case("7 by empty rows and 8", &few, (u64::MAX, 0), 2));
        cases.push(case("7 by lines", &many, (1, FULL), last));
        cases.push(case("7 by lines and 8", &many, (1, 0), last));
    }
    cases
}

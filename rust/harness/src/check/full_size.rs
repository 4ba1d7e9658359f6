//! Traces of as many rows as there may be, and of one more. Each states the verdict that it is meant to get.

use reference::row::Column::*;
use reference::{BOUND, Claim, Draft, MAX_ROWS, ROW_BYTES, Row, Verdict, Wide, sum};

use crate::Outcome;
use crate::check::compare::compare;

/// So many instructions in bounds and one empty row are a full trace.
pub const IN_BOUNDS: u32 = 21_845;
/// So many instructions out of bounds and one empty row are a full trace.
pub const OUT_OF_BOUNDS: u32 = 3_855;

/// A trace and the verdict that is meant.
struct Case {
    name: &'static str,
    trace: Vec<u8>,
    meant: Verdict,
}

/// Compares on every such trace; answers how many there are.
pub fn compare_all() -> Outcome<usize> {
    let families = [whole, too_long, damaged_in_the_last_row, damaged_in_row_0];
    let mut count = 0;
    for case in families.iter().flat_map(|family| family()) {
        let told = |message: String| format!("full size, {}: {message}", case.name);
        let verdict = compare(&case.trace).map_err(told)?;
        if verdict != case.meant {
            return Err(told(format!("both answer {verdict}, meant is {}", case.meant)));
        }
        count += 1;
    }
    Ok(count)
}

/// Instructions in bounds of some contexts in turn: growing, staying and touching nothing.
pub fn in_bounds_of(contexts: u32, empty_rows: usize) -> Draft {
    let claim = |step: u32| Claim::small(1 + step % contexts, step * 761 % 0x00ff_ffff, step % 5 * 4_001);
    Draft::new(empty_rows, &(0..IN_BOUNDS).map(claim).collect::<Vec<_>>())
}

/// Instructions in bounds of many contexts.
pub fn in_bounds(empty_rows: usize) -> Draft {
    in_bounds_of(97, empty_rows)
}

/// Instructions in bounds, each of a context of its own.
pub fn all_contexts() -> Draft {
    let claim = |step: u32| Claim::small(step + 1, step + 1, 0);
    Draft::new(1, &(0..IN_BOUNDS).map(claim).collect::<Vec<_>>())
}

/// Instructions out of bounds of a few contexts.
pub fn out_of_bounds(empty_rows: usize) -> Draft {
    let claim = |step: u32| {
        let end = BOUND.wrapping_add(step.into());
        let end1 = if step.is_multiple_of(2) { end } else { Wide::ZERO };
        Claim { cn: 1 + step % 7, end1, end2: end }
    };
    Draft::new(empty_rows, &(0..OUT_OF_BOUNDS).map(claim).collect::<Vec<_>>())
}

/// Empty rows alone.
pub fn empty(rows: usize) -> Draft {
    Draft::new(rows, &[])
}

fn accepted(name: &'static str, draft: Draft, instructions: u32, oob: u32, empty: u32) -> Case {
    Case { name, trace: draft.to_bytes(), meant: Verdict::Accepted { instructions, oob, empty } }
}

fn broken(name: &'static str, draft: Draft, row: usize, constraint: u8) -> Case {
    Case { name, trace: draft.to_bytes(), meant: Verdict::Broken { row: row as u32, constraint } }
}

fn whole() -> Vec<Case> {
    vec![
        accepted("in bounds", in_bounds(1), IN_BOUNDS, 0, 1),
        accepted("a context each", all_contexts(), IN_BOUNDS, 0, 1),
        accepted("out of bounds", out_of_bounds(1), OUT_OF_BOUNDS, OUT_OF_BOUNDS, 1),
        accepted("empty rows", empty(MAX_ROWS), 0, 0, MAX_ROWS as u32),
    ]
}

fn too_long() -> Vec<Case> {
    let one_more = in_bounds(2).to_bytes();
    let less_a_byte = one_more[1..].to_vec();
    let full_less_a_byte = one_more[..MAX_ROWS * ROW_BYTES - 1].to_vec();
    let refused = |name, trace, number| Case { name, trace, meant: Verdict::Refused { number } };
    vec![
        refused("one row more, in bounds", one_more, 10),
        refused("one row more, out of bounds", out_of_bounds(2).to_bytes(), 10),
        refused("one row more, empty", empty(MAX_ROWS + 1).to_bytes(), 10),
        refused("one row more less a byte", less_a_byte, 9),
        refused("less a byte", full_less_a_byte, 9),
    ]
}

fn damaged_in_the_last_row() -> Vec<Case> {
    let last = MAX_ROWS - 1;
    let summed = in_bounds(1).sum(IN_BOUNDS, sum::DACC, 0x77_7777u32);
    let unsummed = in_bounds(1).change(last, BYTE1, |byte| if byte == Wide::ZERO { 1u8.into() } else { Wide::ZERO });
    let excess = out_of_bounds(1).sum(OUT_OF_BOUNDS, sum::ACC1, 0x7777u32);
    vec![
        broken("in bounds, a difference", summed, last, 19),
        broken("in bounds, a byte", unsummed, last, 10),
        broken("in bounds, cut", in_bounds(2).keep(0..MAX_ROWS), last, 26),
        broken("out of bounds, the excess", excess, last, 25),
        broken("out of bounds, a cell", out_of_bounds(1).set(last, AUX2, 1u8), last, 24),
        broken("out of bounds, cut", out_of_bounds(2).keep(0..MAX_ROWS), last, 26),
        broken("empty, stamp 2", empty(MAX_ROWS).set(last, STAMP, 2u8), last, 3),
        broken("empty, a cell", empty(MAX_ROWS).set(last, AUX2, 1u8), last, 6),
        broken("an instruction's first row", empty(MAX_ROWS - 1).insert(last, first_row()), last, 26),
    ]
}

/// The first row of a first instruction.
fn first_row() -> Row {
    Draft::new(0, &[Claim::small(1, 64, 0)]).rows[0]
}

fn damaged_in_row_0() -> Vec<Case> {
    vec![
        broken("in bounds, OOOB of row 0", in_bounds(1).set(0, OOOB, 2u8), 0, 1),
        broken("in bounds, STAMP of row 0", in_bounds(1).set(0, STAMP, 1u8), 0, 2),
        broken("out of bounds, CT of row 0", out_of_bounds(1).set(0, CT, 16u8), 0, 4),
        broken("empty, OOOB of row 0", empty(MAX_ROWS).set(0, OOOB, 1u8), 0, 5),
        broken("empty, END1 of row 0", empty(MAX_ROWS).set(0, END1, Wide::MAX), 0, 6),
    ]
}

//! Each refusal of the calls over a trace, and the order of every two at once. Each case states the refusal that is
//! meant.

use reference::row::Column::*;
use reference::{Draft, MAX_ROWS, ROW_BYTES};

use crate::Outcome;
use crate::check::full_size::{empty, in_bounds, out_of_bounds};
use crate::trace_calls::asked::Asked;
use crate::trace_calls::question::Question;
use crate::trace_calls::scenes;

/// Bytes that are no accepted trace, and the refusal that they are meant to get from every call but a step.
struct Fault {
    name: String,
    bytes: Vec<u8>,
    number: u64,
}

/// Compares on every case; answers how many answers there were.
pub fn compare_all() -> Outcome<usize> {
    let families = [bad_lengths, too_many_rows, not_accepted, bad_lengths_of_too_many_rows];
    let mut answers = 0;
    for fault in families.iter().flat_map(|family| family()) {
        answers += compare(&fault).map_err(|error| format!("refusal {}, {}: {error}", fault.number, fault.name))?;
    }
    Ok(answers + on_accepted_traces()?)
}

/// What the bytes are refused for comes before an instruction that there is not (12), before context 0 (13) and before
/// a limit that is too low (14): with the first numbers there is nothing else to refuse, with the others there is.
fn compare(fault: &Fault) -> Outcome<usize> {
    let mut asked = Asked::new(&fault.bytes);
    let rows = (fault.bytes.len() / ROW_BYTES) as u64;
    for k in [1, 2, 0, rows, rows + 1, u64::MAX] {
        asked.expect_refusal(Question::Rows { k }, fault.number)?;
        asked.expect_refusal(Question::Claim { k }, fault.number)?;
    }
    for cn in [1, 2, 0, u32::MAX] {
        for limit in [u64::MAX, rows, 1, 0] {
            asked.expect_refusal(Question::LastState { cn, limit }, fault.number)?;
        }
    }
    asked.expect_refusal(Question::Open, fault.number)?;
    Ok(asked.answers())
}

/// Bytes with a name that are meant to get a refusal.
fn fault(number: u64, name: impl Into<String>, bytes: Vec<u8>) -> Fault {
    Fault { name: name.into(), bytes, number }
}

/// Refusal 9 alone, and before 11: no byte, part of a row, and rows with a byte more or less, right and damaged.
fn bad_lengths() -> Vec<Fault> {
    let mut faults = Vec::new();
    for length in [0, 1, ROW_BYTES - 1, ROW_BYTES + 1, 2 * ROW_BYTES - 1] {
        faults.push(fault(9, format!("{length} zeros"), vec![0; length]));
        faults.push(fault(9, format!("{length} ones"), vec![u8::MAX; length]));
    }
    for scene in scenes::all() {
        let right = scene.bytes();
        let mut damaged = right.clone();
        damaged[0] = 1;
        for (kind, bytes) in [("right", right), ("damaged", damaged)] {
            let less = bytes[..bytes.len() - 1].to_vec();
            let more = [&bytes[..], &[0]].concat();
            faults.push(fault(9, format!("{}, {kind}, less a byte", scene.name), less));
            faults.push(fault(9, format!("{}, {kind}, and a byte", scene.name), more));
        }
    }
    faults
}

/// Refusal 10 alone, and before 11: a row more than there may be, of rows that are right and that are damaged.
fn too_many_rows() -> Vec<Fault> {
    let damaged_first = in_bounds(2).set(0, STAMP, 1u8);
    let damaged_last = in_bounds(2).set(MAX_ROWS, AUX2, 1u8);
    let with = |name, draft: Draft| fault(10, name, draft.to_bytes());
    vec![
        with("in bounds", in_bounds(2)),
        with("out of bounds", out_of_bounds(2)),
        with("empty rows", empty(MAX_ROWS + 1)),
        with("damaged in row 0", damaged_first),
        with("damaged in the last row", damaged_last),
        fault(10, "ones", vec![u8::MAX; (MAX_ROWS + 1) * ROW_BYTES]),
        fault(10, "many more rows", vec![0; 2 * MAX_ROWS * ROW_BYTES]),
    ]
}

/// Refusal 9 before 10, and before both 10 and 11.
fn bad_lengths_of_too_many_rows() -> Vec<Fault> {
    let right = in_bounds(2).to_bytes();
    let damaged = in_bounds(2).set(0, OOOB, 7u8).to_bytes();
    let and_a_byte = |bytes: &[u8]| [bytes, &[0]].concat();
    vec![
        fault(9, "a row more less a byte", right[..right.len() - 1].to_vec()),
        fault(9, "a row more and a byte", and_a_byte(&right)),
        fault(9, "a row more and a byte, damaged", and_a_byte(&damaged)),
        fault(9, "all rows and a byte", right[..MAX_ROWS * ROW_BYTES + 1].to_vec()),
        fault(9, "all rows less a byte", right[..MAX_ROWS * ROW_BYTES - 1].to_vec()),
    ]
}

/// Refusal 11 alone: scenes without their empty rows, cut inside their last cycle, and with a cell changed in the first
/// or the last row; ones; and a cell of the last row at full size.
fn not_accepted() -> Vec<Fault> {
    let mut faults = vec![
        fault(11, "a row of ones", vec![u8::MAX; ROW_BYTES]),
        fault(11, "full size, in bounds", in_bounds(1).set(MAX_ROWS - 1, AUX2, 77u8).to_bytes()),
        fault(11, "full size, empty rows", empty(MAX_ROWS).set(MAX_ROWS - 1, CN, 1u8).to_bytes()),
    ];
    for scene in scenes::all() {
        let bytes = scene.bytes();
        let mut change = |what: &str, at: usize| {
            let mut changed = bytes.clone();
            changed[at] ^= 1;
            faults.push(fault(11, format!("{}, {what}", scene.name), changed));
        };
        change("STAMP of row 0", 3);
        change("CT of row 0", 9);
        change("the last byte", bytes.len() - 1);
        if scene.instructions() > 0 {
            let cycles = bytes[scene.empty * ROW_BYTES..].to_vec();
            faults.push(fault(11, format!("{}, no empty row", scene.name), cycles));
            let cut = bytes[..bytes.len() - ROW_BYTES].to_vec();
            faults.push(fault(11, format!("{}, less a row", scene.name), cut));
        }
    }
    faults
}

/// Refusals 12 to 14 where there is no other, and 13 before 14: context 0 at limits that are too low.
fn on_accepted_traces() -> Outcome<usize> {
    let mut answers = 0;
    for scene in scenes::all() {
        let bytes = scene.bytes();
        let mut asked = Asked::new(&bytes);
        let all = scene.instructions();
        let mut expect = |question, number| {
            asked.expect_refusal(question, number).map_err(|error| format!("refusals, {}: {error}", scene.name))
        };
        for k in [0, all + 1, u64::MAX] {
            expect(Question::Rows { k }, 12)?;
            expect(Question::Claim { k }, 12)?;
        }
        for limit in [0, 1, all, u64::MAX] {
            expect(Question::LastState { cn: 0, limit }, 13)?;
        }
        for limit in 0..all {
            expect(Question::LastState { cn: 0x0bad_cafe, limit }, 14)?;
        }
        answers += asked.answers();
    }
    Ok(answers)
}

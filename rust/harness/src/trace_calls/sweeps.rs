//! Everything of one kind put to both: every cut of a trace, every bit of it, every OOOB, and steps from rows past all
//! ends.

use reference::row::Column::OOOB;
use reference::{BOUND, Claim, Draft, MAX_ROWS, ROW_BYTES, Wide};

use crate::Outcome;
use crate::check::full_size::in_bounds;
use crate::trace_calls::asked::Asked;
use crate::trace_calls::question::Question;

/// The rows of the tour.
const TOUR_ROWS: usize = 25;
/// The least number of rows whose bytes are more than 64 bits count.
const BYTES_WRAP: u64 = u64::MAX / ROW_BYTES as u64 + 1;

/// Two empty rows, then rows 2 to 4 in bounds, 5 to 21 out of bounds and 22 to 24 in bounds.
fn tour() -> Draft {
    let far = Claim { cn: 2, end1: Wide::MAX, end2: BOUND };
    Draft::new(2, &[Claim::small(1, 2_571, 300), far, Claim::small(1, 0x12_3456, 0x06_5432)])
}

/// Compares on all of it; answers how many answers there were.
pub fn compare_all() -> Outcome<usize> {
    Ok(every_cut()? + every_bit()? + every_ooob()? + no_row_at_all()? + far_rows()? + too_many_rows()?)
}

/// Adds to a message what was being done.
fn told(what: String) -> impl Fn(String) -> String {
    move |error| format!("call sweep, {what}: {error}")
}

/// Every call but a step.
fn checked_calls(k: u64, cn: u32, limit: u64) -> [Question; 4] {
    [Question::Rows { k }, Question::Claim { k }, Question::LastState { cn, limit }, Question::Open]
}

/// Rows from which a step must find nothing in a trace of so many rows, and stay: past the end, and such that the row,
/// its first byte or the row after the step is another number if something wraps.
fn rows_past(rows: u64) -> impl Iterator<Item = u64> {
    let near = (0..20).map(move |more| rows + more);
    let wrapped = (0..rows + 2).flat_map(|row| (17..64).map(move |bit| row + (1 << bit)));
    let products = (1..=113u128).map(|times| (times << 64).div_ceil(ROW_BYTES as u128) as u64);
    let products = products.flat_map(|row| (0..5).map(move |more| row - 2 + more));
    let top = (0..40).map(|less| u64::MAX - less);
    near.chain(wrapped).chain(products).chain(top).chain([BYTES_WRAP])
}

/// The tour cut to every length: steps from every row and from past the end, and the other calls.
fn every_cut() -> Outcome<usize> {
    let whole = tour().to_bytes();
    let mut answers = 0;
    for kept in 0..=whole.len() {
        let told = told(format!("the tour cut to {kept} bytes"));
        let mut asked = Asked::new(&whole[..kept]);
        let rows = kept / ROW_BYTES;
        for next in 0..=TOUR_ROWS {
            let takes = if (5..22).contains(&next) { 17 } else { 3 };
            asked.expect_step(next, takes).map_err(&told)?;
        }
        for question in checked_calls(1, 1, 3) {
            let answer = asked.ask(question).map_err(&told)?;
            let accepted = [1, 2, 5, 22, 25].contains(&rows) && kept % ROW_BYTES == 0;
            let meant = if kept == 0 || kept % ROW_BYTES != 0 { 9 } else { 11 };
            if !accepted && answer != question.refused(meant) {
                return Err(told(format!("{question:?}: both answer {answer:?}")));
            }
        }
        answers += asked.answers();
    }
    Ok(answers)
}

/// The tour with any one bit changed, which no call but a step accepts.
fn every_bit() -> Outcome<usize> {
    let mut bytes = tour().to_bytes();
    let mut answers = 0;
    for at in 0..bytes.len() {
        for bit in 0..8 {
            bytes[at] ^= 1 << bit;
            let told = told(format!("the tour with bit {bit} of byte {at} changed"));
            let mut asked = Asked::new(&bytes);
            checked_calls(2, 2, 3)
                .into_iter()
                .try_for_each(|question| asked.expect_refusal(question, 11))
                .map_err(told)?;
            answers += asked.answers();
            bytes[at] ^= 1 << bit;
        }
    }
    Ok(answers)
}

/// Every OOOB in a row of the tour, with more than 17 rows, just 17, fewer, just 3 and fewer left.
fn every_ooob() -> Outcome<usize> {
    let mut answers = 0;
    for row in [0, 1, 4, 5, 8, 9, 21, 22, 23, 24] {
        for ooob in 0..=u8::MAX {
            let bytes = tour().set(row, OOOB, ooob).to_bytes();
            let mut asked = Asked::new(&bytes);
            let takes = if ooob == 1 { 17 } else { 3 };
            asked.expect_step(row, takes).map_err(told(format!("OOOB {ooob} in row {row}")))?;
            answers += asked.answers();
        }
    }
    Ok(answers)
}

/// Bytes without a whole row, of all kinds.
fn no_row_at_all() -> Outcome<usize> {
    let mut answers = 0;
    for length in 0..ROW_BYTES {
        for byte in [0, 1, u8::MAX] {
            let bytes = vec![byte; length];
            let told = told(format!("{length} bytes of {byte}"));
            let mut asked = Asked::new(&bytes);
            for next in [0, 1, 2, BYTES_WRAP, 1 << 63, u64::MAX] {
                asked.expect_no_step(next).map_err(&told)?;
            }
            for question in checked_calls(0, 0, 0) {
                asked.expect_refusal(question, 9).map_err(&told)?;
            }
            answers += asked.answers();
        }
    }
    Ok(answers)
}

/// Steps from rows that are not there: in the tour, in part of it with more bytes than its rows have, and at full size.
fn far_rows() -> Outcome<usize> {
    let tour = tour().to_bytes();
    let full = in_bounds(1).to_bytes();
    let mut answers = 0;
    for (what, bytes) in [("the tour", &tour[..]), ("part of the tour", &tour[..21 * ROW_BYTES + 113])] {
        let told = told(format!("far rows of {what}"));
        let mut asked = Asked::new(bytes);
        for next in rows_past((bytes.len() / ROW_BYTES) as u64) {
            asked.expect_no_step(next).map_err(&told)?;
        }
        answers += asked.answers();
    }
    let told = told("far rows at full size".into());
    let mut asked = Asked::new(&full);
    for next in rows_past(0).filter(|&next| next >= MAX_ROWS as u64) {
        asked.expect_unseen(Question::Step { next }, &[0, 0, next]).map_err(&told)?;
    }
    asked.untouched().map_err(told)?;
    Ok(answers + asked.answers())
}

/// Steps where there are more rows than a trace may have: a step does not mind.
fn too_many_rows() -> Outcome<usize> {
    let rows = MAX_ROWS + 20;
    let bytes = Draft::new(rows, &[]).set(MAX_ROWS, OOOB, 1u8).to_bytes();
    let told = told("steps among too many rows".into());
    let mut asked = Asked::new(&bytes);
    for next in MAX_ROWS - 20..=rows {
        let takes = if next == MAX_ROWS { 17 } else { 3 };
        asked.expect_step(next, takes).map_err(&told)?;
    }
    Ok(asked.answers())
}

//! Everything of one kind put to both fillers: counts of empty rows at their edges, every size of a buffer, every place
//! of a cut, every byte in every place, every opcode, every count of digits.

use reference::list::Fields;
use reference::list_vectors::{FAULTS, PLAIN, SAMPLE};
use reference::{MAX_ROWS, ROW_BYTES, Refusal};

use crate::Outcome;
use crate::fill::filling::{Answer, Order, compare, compare_and_read_back};
use crate::fill::vector_files::compare_rooms;

/// So many opcodes are listed.
const LISTED: usize = 22;
/// More digits than any number may have.
const MOST_DIGITS: usize = 40;
/// The rows of the sample after one empty row.
const SAMPLE_ROWS: usize = 33;
/// A buffer for any trace of as many lines as the sample has, whatever they say.
const FOR_SIX_LINES: usize = (1 + 6 * 17) * ROW_BYTES;
/// The most empty rows that the sample leaves room for.
const BESIDE_THE_SAMPLE: u64 = (MAX_ROWS - SAMPLE_ROWS) as u64 + 1;
/// The least count of rows whose bytes are more than 64 bits count.
const BYTES_WRAP: u64 = u64::MAX / ROW_BYTES as u64 + 1;

/// Counts of empty rows: none, some, at the limit on rows, and where a narrow number, or a product, would wrap.
const EMPTY_ROWS: [u64; 19] = [
    0,
    1,
    2,
    BESIDE_THE_SAMPLE,
    BESIDE_THE_SAMPLE + 1,
    65_533,
    65_534,
    65_535,
    65_536,
    65_537,
    u32::MAX as u64,
    1 << 32,
    (1 << 32) + 1,
    BYTES_WRAP,
    BYTES_WRAP + 1,
    1 << 63,
    u64::MAX - 31,
    u64::MAX - 2,
    u64::MAX,
];

/// Compares on all of it; answers how many calls there were.
pub fn compare_all() -> Outcome<usize> {
    Ok(every_count_of_empty_rows()?
        + every_room()?
        + every_cut()?
        + every_byte()?
        + every_opcode()?
        + every_count_of_digits()?)
}

fn told(what: String) -> impl Fn(String) -> String {
    move |error| format!("fill sweep, {what}: {error}")
}

/// No line, some right lines, and some with a bad one, after each count of empty rows.
fn every_count_of_empty_rows() -> Outcome<usize> {
    let mut lists = vec![String::new(), PLAIN.into(), SAMPLE.into()];
    lists.extend(FAULTS.map(|(_, fault, _)| [SAMPLE, fault].concat()));
    let full = MAX_ROWS * ROW_BYTES;
    let mut calls = 0;
    for list in lists.iter().map(|list| list.as_bytes()) {
        for empty_rows in EMPTY_ROWS {
            let told = told(format!("{empty_rows} empty rows"));
            calls += compare_rooms(list, empty_rows).map_err(&told)? + 1;
            compare(&Order { list, behind: &[], empty_rows, room: full }).map(drop).map_err(told)?;
        }
    }
    Ok(calls)
}

/// The sample into buffers of every size up to two rows more than it needs.
fn every_room() -> Outcome<usize> {
    let most = (SAMPLE_ROWS + 2) * ROW_BYTES;
    for room in 0..=most {
        let order = Order { list: SAMPLE.as_bytes(), behind: &[], empty_rows: 1, room };
        let answer = compare(&order).map_err(told("rooms".into()))?;
        if answer.is_ok() != (room >= SAMPLE_ROWS * ROW_BYTES) {
            return Err(format!("fill sweep: both answer {answer:?} for a buffer of {room} bytes"));
        }
    }
    Ok(most + 1)
}

/// The sample cut at every byte, with the rest of it behind: what is left is filled if it ends in a newline, else its
/// last line is refused.
fn every_cut() -> Outcome<usize> {
    for kept in 0..=SAMPLE.len() {
        let (list, behind) = SAMPLE.as_bytes().split_at(kept);
        let told = told(format!("the sample cut to {kept} bytes"));
        let answer = compare(&Order { list, behind, empty_rows: 1, room: SAMPLE_ROWS * ROW_BYTES }).map_err(&told)?;
        let lines = list.iter().filter(|&&byte| byte == b'\n').count() as u64;
        let whole = kept == 0 || list.ends_with(b"\n");
        let meant = if whole { None } else { Some(Refusal { number: 3, line: lines + 1 }) };
        if answer.as_ref().err() != meant.as_ref() {
            return Err(told(format!("both answer {:?}, meant is {meant:?}", answer.err())));
        }
    }
    Ok(SAMPLE.len() + 1)
}

/// Compares on a list of at most six lines, and reads its claims back.
fn compare_few_lines(list: &[u8]) -> Outcome<Answer> {
    compare_and_read_back(&Order { list, behind: &[], empty_rows: 1, room: FOR_SIX_LINES })
}

/// The sample with every byte in the place of each of its own.
fn every_byte() -> Outcome<usize> {
    for at in 0..SAMPLE.len() {
        for byte in 0..=u8::MAX {
            let mut list = SAMPLE.as_bytes().to_vec();
            list[at] = byte;
            compare_few_lines(&list).map(drop).map_err(told(format!("byte {byte} at {at} of the sample")))?;
        }
    }
    Ok(SAMPLE.len() * 256)
}

/// Every opcode with every choice of fields that are not 0; with none, as many as are not listed must be refused.
fn every_opcode() -> Outcome<usize> {
    let mut unlisted = 0;
    for op in 0..=u8::MAX {
        for choice in 0..1 << 8 {
            let answer = compare_few_lines(chosen(op, choice).to_string().as_bytes());
            let answer = answer.map_err(told(format!("opcode {op:02x}, choice {choice}")))?;
            unlisted += usize::from(choice == 0 && answer == Err(Refusal { number: 5, line: 1 }));
        }
    }
    if unlisted == 256 - LISTED { Ok(256 << 8) } else { Err(format!("{unlisted} opcodes are refused")) }
}

/// The fields of an opcode with each half not 0 whose bit is set in the choice.
fn chosen(op: u8, choice: u32) -> Fields {
    let half = |bit: u32| u128::from(choice >> bit & 1);
    let [at1, len1, at2, len2] = [0, 2, 4, 6].map(|bit| half(bit + 1) << 64 | half(bit));
    Fields { cn: 1, op, at1, len1, at2, len2 }
}

/// Each number of a CALL with any count of digits.
fn every_count_of_digits() -> Outcome<usize> {
    let mut count = 0;
    for field in 0..6 {
        for digits in 0..=MOST_DIGITS {
            for (first, others) in [("1", "0"), ("f", "f"), ("0", "0"), ("8", "a"), ("a", "9")] {
                let mut values = ["7", "f1", "1f", "20", "e0", "5"].map(String::from);
                values[field] = [first, &others.repeat(MOST_DIGITS)].concat()[..digits].into();
                let [cn, op, at1, len1, at2, len2] = values;
                let list = format!("cn={cn} op={op} at1={at1} len1={len1} at2={at2} len2={len2}\n");
                compare_few_lines(list.as_bytes()).map(drop).map_err(told(list))?;
                count += 1;
            }
        }
    }
    Ok(count)
}

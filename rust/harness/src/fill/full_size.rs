//! Lists that fill as many rows as there may be, and lists of as many bytes as there may be; and one more of each. Each
//! states the answer that it is meant to get.

use reference::list::Fields;
use reference::{MAX_ROWS, ROW_BYTES};

use crate::Outcome;
use crate::check::full_size::{IN_BOUNDS, OUT_OF_BOUNDS};
use crate::fill::case::{Case, compare_cases};
use crate::fill::full_lists::{largest, shortest, typical};

/// A buffer for the longest trace and a row more.
const AMPLE: usize = (MAX_ROWS + 1) * ROW_BYTES;
/// So many instructions of which every 81st is out of bounds, and one empty row, are a full trace: 80 * 3 + 17 rows are
/// 257, and 255 * 257 are 65,535.
const MIXED: u32 = 81 * 255;

/// Compares on every case; answers how many there are.
pub fn compare_all() -> Outcome<usize> {
    let families = [full, one_more, short_by_a_byte, of_most_bytes, of_most_bytes_with_a_bad_end];
    compare_cases(families.into_iter().flat_map(|family| family()))
}

/// Lines with fields for each step.
fn lines(steps: u32, fields: impl Fn(u32) -> Fields) -> String {
    (0..steps).map(|step| fields(step).to_string()).collect()
}

/// An instruction in bounds that grows, stays or touches nothing.
fn near(cn: u32, step: u32) -> Fields {
    let at1 = u128::from(step * 761 % 0x00ff_f000);
    match step % 8 {
        3 => Fields { cn, op: 0x59, ..Fields::default() },
        5 => Fields { cn, op: 0xf1, at1, len1: 0x44, at2: 0x80, len2: u128::from(step) },
        6 => Fields { cn, op: 0x53, at1, ..Fields::default() },
        _ => Fields { cn, op: 0x52, at1, ..Fields::default() },
    }
}

/// An instruction out of bounds, by either range or by both.
fn far(cn: u32, step: u32) -> Fields {
    let at = (1 << 24) + u128::from(step);
    match step % 3 {
        0 => Fields { cn, op: 0x20, at1: at, len1: u128::MAX, ..Fields::default() },
        1 => Fields { cn, op: 0xfa, at1: 0, len1: 0x20, at2: at << 90, len2: 1 },
        _ => Fields { cn, op: 0xf4, at1: at, len1: 1, at2: at << 40, len2: at },
    }
}

/// Instructions in bounds of some contexts in turn, a full trace.
fn interleaved(contexts: u32) -> String {
    lines(IN_BOUNDS, |step| near(1 + step % contexts, step))
}

/// Instructions in bounds, each of a context of its own, with numbers that rise.
fn rising() -> String {
    lines(IN_BOUNDS, |step| near(1 + step, step))
}

/// Instructions in bounds, each of a context of its own, with numbers that fall.
fn falling() -> String {
    lines(IN_BOUNDS, |step| near(u32::MAX - step, step))
}

/// Instructions out of bounds of a few contexts, a full trace.
fn out_of_bounds() -> String {
    lines(OUT_OF_BOUNDS, |step| far(1 + step % 7, step))
}

/// Instructions of both kinds, every 81st of them out of bounds, a full trace.
pub fn mixed() -> String {
    let fields = |step| if step % 81 == 80 { far } else { near };
    lines(MIXED, |step| fields(step)(1 + step % 9, step))
}

/// Instructions in bounds in lines as long as such may be: ranges of length 0 at offsets of the most digits.
fn longest_lines() -> String {
    let at = u128::MAX;
    lines(IN_BOUNDS, |step| Fields { cn: u32::MAX - step % 3, op: 0xf1, at1: at, len1: 0, at2: at, len2: 0 })
}

/// Contexts that each come twice, the second time after all others.
fn twice() -> String {
    lines(IN_BOUNDS, |step| near(1 + step % (IN_BOUNDS / 2), step))
}

fn full() -> Vec<Case> {
    let most = MAX_ROWS as u64;
    let fills = |name, list: String| Case::fills(format!("full trace, {name}"), list, 1, MAX_ROWS);
    vec![
        fills("one context", interleaved(1)),
        fills("64 contexts in turn", interleaved(64)),
        fills("a context each, rising", rising()),
        fills("a context each, falling", falling()),
        fills("each context twice", twice()),
        fills("out of bounds", out_of_bounds()),
        fills("both kinds", mixed()),
        fills("the longest lines", longest_lines()),
        Case::fills("full trace, empty rows", "", most, MAX_ROWS),
        Case::fills("full trace, empty rows and a line", near(7, 1).to_string(), most - 3, MAX_ROWS),
        Case::fills("full trace, empty rows and a line out of bounds", far(7, 1).to_string(), most - 17, MAX_ROWS),
    ]
}

/// One instruction or one empty row more than there may be.
fn one_more() -> Vec<Case> {
    let refused =
        |name, list: String, empty_rows| Case::refused(format!("one more, {name}"), list, (empty_rows, AMPLE), (7, 0));
    let most = MAX_ROWS as u64;
    vec![
        refused("in bounds", interleaved(1) + &near(1, 0).to_string(), 1),
        refused("out of bounds", out_of_bounds() + &far(1, 0).to_string(), 1),
        refused("both kinds", mixed() + &near(1, 0).to_string(), 1),
        refused("an empty row before lines in bounds", interleaved(64), 2),
        refused("an empty row before lines out of bounds", out_of_bounds(), 2),
        refused("an empty row before a line", near(7, 1).to_string(), most - 2),
        refused("an empty row alone", String::new(), most + 1),
    ]
}

fn short_by_a_byte() -> Vec<Case> {
    let short = MAX_ROWS * ROW_BYTES - 1;
    let refused = |name, list: String, empty_rows| {
        Case::refused(format!("short by a byte, {name}"), list, (empty_rows, short), (8, 0))
    };
    vec![
        refused("in bounds", interleaved(64), 1),
        refused("out of bounds", out_of_bounds(), 1),
        refused("empty rows", String::new(), MAX_ROWS as u64),
    ]
}

/// Lists of 4,194,304 bytes, whose rows are too many, and with one byte more.
fn of_most_bytes() -> Vec<Case> {
    let refused = |name: &str, list: Vec<u8>, room, number| {
        Case::refused(format!("most bytes, {name}"), list, (1, room), (number, 0))
    };
    let and_a_byte = |mut list: Vec<u8>| {
        list.push(b'c');
        list
    };
    vec![
        refused("typical", typical(), AMPLE, 7),
        refused("typical, no room", typical(), 0, 7),
        refused("largest fields", largest(), AMPLE, 7),
        refused("shortest", shortest(), AMPLE, 7),
        refused("and a byte", and_a_byte(typical()), AMPLE, 1),
        refused("and a byte, shortest", and_a_byte(shortest()), AMPLE, 1),
        refused("and a byte after a bad line", and_a_byte(typical_but("op=", "op=5e")), AMPLE, 1),
    ]
}

/// Lists of 4,194,304 bytes with a bad last line, which comes before too many rows and a short buffer.
fn of_most_bytes_with_a_bad_end() -> Vec<Case> {
    let lines = typical().iter().filter(|&&byte| byte == b'\n').count() as u64;
    let mut cases = Vec::new();
    for (last, other, number) in [("\n", " ", 3), ("cn=1 ", "cn=0 ", 4), ("op=", "op=5e", 5), ("op=", "op=20", 6)] {
        for room in [AMPLE, 0] {
            let name = format!("most bytes, {number} in the last line");
            cases.push(Case::refused(name, typical_but(last, other), (1, room), (number, lines)));
        }
    }
    cases
}

/// The typical list with other text from the last place on at which some text stands.
fn typical_but(last: &str, other: &str) -> Vec<u8> {
    let mut list = typical();
    let at = list.windows(last.len()).rposition(|part| part == last.as_bytes()).expect("a line has it");
    list[at..at + other.len()].copy_from_slice(other.as_bytes());
    list
}

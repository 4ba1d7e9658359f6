//! Right traces that the vectors start from. Their numbers fill the bytes of their cells, so that a lost or misplaced
//! byte shows.

use crate::claim::Claim;
use crate::cycle::BOUND;
use crate::draft::Draft;
use crate::program::MAX_TRACE_INPUT;
use crate::row::ROW_BYTES;
use crate::wide::Wide;

/// A scene with its name.
pub type Scene = (&'static str, fn() -> Draft);

/// In the scenes of two instructions, where the first row of the second stands.
pub const SECOND: usize = 4;
/// In the scenes of two instructions, where the last row of the second stands if it is in bounds.
pub const SECOND_END: usize = 6;
/// In `single`, where the last row stands.
pub const SINGLE_END: usize = 3;

/// An end out of bounds with bytes that all differ.
pub fn far_end() -> Wide {
    Wide::from_be_bytes(std::array::from_fn(|place| 0x11 + place as u8))
}

/// The bound and some bytes more.
pub fn past_bound(bytes: u32) -> Wide {
    BOUND.wrapping_add(bytes.into())
}

/// A first instruction, in bounds: rows 1 to 3.
pub fn single(end1: u32, end2: u32) -> Draft {
    Draft::new(1, &[Claim::small(1, end1, end2)])
}

/// Two instructions of one context, the second of which reaches further, by its first end.
pub fn grown() -> Draft {
    let first = Claim::small(1, 2_571, 300);
    Draft::new(1, &[first, Claim::small(1, 0x12_3456, 0x06_5432)])
}

/// The same with the ends of the second exchanged.
pub fn grown_by_end2() -> Draft {
    let first = Claim::small(1, 2_571, 300);
    Draft::new(1, &[first, Claim::small(1, 0x06_5432, 0x12_3456)])
}

/// Two instructions of one context, the second of which stays within what the first reached.
pub fn kept() -> Draft {
    let first = Claim::small(1, 0x12_3456, 300);
    Draft::new(1, &[first, Claim::small(1, 0x06_5432, 0x04_0302)])
}

/// Two instructions of one context, the second of which is out of bounds: rows 4 to 20.
pub fn beyond() -> Draft {
    let second = Claim { cn: 1, end1: far_end(), end2: 300u32.into() };
    Draft::new(1, &[Claim::small(1, 0x12_3456, 300), second])
}

/// A first instruction, out of bounds: rows 1 to 17.
pub fn lone_beyond(end1: Wide, end2: Wide) -> Draft {
    Draft::new(1, &[Claim { cn: 1, end1, end2 }])
}

/// Two empty rows, then an instruction in bounds (rows 2 to 4), one out of bounds (5 to 21) and one in bounds (22 to
/// 24).
pub fn tour() -> Draft {
    let beyond = Claim { cn: 2, end1: 7u32.into(), end2: far_end() };
    let claims = [Claim::small(1, 2_571, 300), beyond, Claim::small(1, 0x12_3456, 0x06_5432)];
    Draft::new(2, &claims)
}

/// The rows of `tour` that stand for each kind of place, with names.
pub const TOUR: [(&str, usize); 9] = [
    ("first_empty_row", 0),
    ("second_empty_row", 1),
    ("in_bounds_ct_0", 2),
    ("in_bounds_ct_1", 3),
    ("in_bounds_ct_2", 4),
    ("out_of_bounds_ct_0", 5),
    ("out_of_bounds_ct_2", 7),
    ("out_of_bounds_ct_8", 13),
    ("out_of_bounds_ct_16", 21),
];

/// The rows of the longest input that `verify` reads.
pub const LONGEST: usize = MAX_TRACE_INPUT / ROW_BYTES;

/// One empty row and 191 instructions in bounds: as many rows as `verify` reads.
pub fn longest_in_bounds() -> Draft {
    let claim = |step: u32| Claim::small(1 + step % 7, step * 3_001, step * 40_009);
    Draft::new(1, &(1..=191).map(claim).collect::<Vec<_>>())
}

/// Empty rows and 33 instructions out of bounds; with 13 empty rows, as many rows as `verify` reads.
pub fn longest_beyond(empty_rows: usize) -> Draft {
    let claim = |step: u32| Claim { cn: 1 + step % 3, end1: past_bound(step), end2: far_end() };
    Draft::new(empty_rows, &(1..=33).map(claim).collect::<Vec<_>>())
}

/// One empty row, an instruction of context 1 that reaches 64 bytes, and one of each of 189 other contexts: one
/// instruction more makes as many rows as `verify` reads.
pub fn many_contexts() -> Draft {
    let claim = |cn| Claim::small(cn, 63 + cn, 0);
    Draft::new(1, &(1..=190).map(claim).collect::<Vec<_>>())
}

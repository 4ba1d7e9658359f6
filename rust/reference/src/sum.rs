//! Numbers written as bytes over the rows of a cycle, each row with the number of the bytes so far beside its byte.

use crate::row::{Column, Row};
use crate::wide::Wide;

/// A column of bytes and the column into which they sum up.
#[derive(Clone, Copy, Debug, PartialEq, Eq)]
pub struct Sum {
    /// The bytes.
    pub byte: Column,
    /// Their sums.
    pub acc: Column,
}

impl Sum {
    const fn of(byte: Column, acc: Column) -> Sum {
        Sum { byte, acc }
    }
}

/// END1 in bounds; out of bounds, what an end has over the bound.
pub const ACC1: Sum = Sum::of(Column::BYTE1, Column::ACC1);
/// END2.
pub const ACC2: Sum = Sum::of(Column::BYTE2, Column::ACC2);
/// The difference of the ends.
pub const DACC: Sum = Sum::of(Column::DBYTE, Column::DACC);
/// The difference of the greater end and what was reached before.
pub const EACC: Sum = Sum::of(Column::EBYTE, Column::EACC);
/// Q1.
pub const Q1ACC: Sum = Sum::of(Column::Q1BYTE, Column::Q1ACC);
/// Q2 without its top byte.
pub const Q2ACC: Sum = Sum::of(Column::Q2BYTE, Column::Q2ACC);

/// All of them.
pub const SUMS: [Sum; 6] = [ACC1, ACC2, DACC, EACC, Q1ACC, Q2ACC];

/// The byte of a number of at most 32 bits, and the sum up to it, in the row with so many rows of its cycle after it.
#[inline]
pub fn part(total: u32, after: u8) -> (u8, u32) {
    let acc = total >> (8 * after);
    (acc as u8, acc)
}

/// The same of any number.
#[inline]
pub fn wide_part(total: Wide, after: u8) -> (u8, Wide) {
    let acc = total.without_last_bytes(after);
    (acc.last_byte(), acc)
}

/// Writes the bytes of `total`, highest first, over the rows of a cycle and sums them up. As many bytes as rows must
/// hold it.
pub fn sum_up(cycle: &mut [Row], sum: Sum, total: Wide) {
    let rows = cycle.len() as u8;
    let over = total.without_last_bytes(rows);
    assert!(over == Wide::ZERO, "{total:?} needs more rows than {rows}");
    for (row, after) in cycle.iter_mut().zip((0..rows).rev()) {
        let (byte, acc) = wide_part(total, after);
        row.set(sum.byte, byte.into());
        row.set(sum.acc, acc);
    }
}

#[cfg(test)]
mod tests {
    use super::*;

    #[test]
    fn three_rows_hold_three_bytes() {
        let mut cycle = [Row::default(); 3];
        sum_up(&mut cycle, DACC, Wide::from(0x01_0203u32));
        let cells = cycle.map(|row| (row.dbyte, row.dacc));
        assert_eq!(cells, [(1, 0x01), (2, 0x0102), (3, 0x0001_0203)]);
    }

    #[test]
    fn parts_of_small_and_wide_numbers_are_the_same() {
        let total = 0x00ab_cdef;
        for (after, meant) in [(2, (0xab, 0xab)), (1, (0xcd, 0xabcd)), (0, (0xef, total))] {
            assert_eq!(part(total, after), meant);
            assert_eq!(wide_part(total.into(), after), (meant.0, meant.1.into()));
        }
    }

    #[test]
    fn seventeen_rows_hold_the_largest_number() {
        let mut cycle = [Row::default(); Wide::BYTES];
        sum_up(&mut cycle, ACC1, Wide::MAX);
        assert_eq!(cycle[16].acc1, Wide::MAX);
        assert!(cycle.iter().all(|row| row.byte1 == u8::MAX));
    }

    #[test]
    #[should_panic(expected = "needs more rows than 3")]
    fn a_number_that_the_rows_do_not_hold_is_not_cut() {
        sum_up(&mut [Row::default(); 3], ACC1, Wide::power_of_two(24));
    }
}

//! The filler: writes the trace of a list of instructions into a lent buffer. It reads the list twice: first to the
//! end, so that a refusal leaves the buffer as it was, then to write.

use std::collections::HashMap;

use crate::check::MAX_ROWS;
use crate::cycle::{State, last_ct};
use crate::list::claims;
use crate::numbers::Numbers;
use crate::refusal::Refusal;
use crate::row::ROW_BYTES;

/// A list has at most so many bytes.
pub const MAX_LIST: usize = 4_194_304;

/// The refusal of a list that is too long.
pub const LIST_TOO_LONG: Refusal = Refusal::of_all(1);
/// The refusal of a count of 0 empty rows.
pub const NO_EMPTY_ROWS: Refusal = Refusal::of_all(2);
/// The refusal of more rows than a trace may have.
pub const TOO_MANY_ROWS: Refusal = Refusal::of_all(7);
/// The refusal of a buffer that does not hold the trace.
pub const BUFFER_SHORT: Refusal = Refusal::of_all(8);

/// Writes the trace of a list after so many empty rows, and answers how many rows it has. The bytes behind them stay,
/// and on a refusal all bytes.
pub fn fill(list: &[u8], empty_rows: u64, buffer: &mut [u8]) -> Result<usize, Refusal> {
    let rows = rows_of(list, empty_rows)?;
    let trace = buffer.get_mut(..rows * ROW_BYTES).ok_or(BUFFER_SHORT)?;
    // At most `rows`, so it fits.
    let (empty, cycles) = trace.split_at_mut(empty_rows as usize * ROW_BYTES);
    empty.fill(0);
    write_cycles(list, cycles);
    Ok(rows)
}

/// How many rows the trace of a list after so many empty rows has. All lines are read.
pub fn rows_of(list: &[u8], empty_rows: u64) -> Result<usize, Refusal> {
    if list.len() > MAX_LIST {
        return Err(LIST_TOO_LONG);
    }
    if empty_rows == 0 {
        return Err(NO_EMPTY_ROWS);
    }
    let mut rows = u128::from(empty_rows);
    for claim in claims(list) {
        rows += u128::from(last_ct(claim?.ooob())) + 1;
    }
    if rows > MAX_ROWS as u128 { Err(TOO_MANY_ROWS) } else { Ok(rows as usize) }
}

/// Writes the cycles of a list without a line that is refused into as many bytes as they have.
fn write_cycles(list: &[u8], cycles: &mut [u8]) {
    let mut rows = cycles.as_chunks_mut::<ROW_BYTES>().0.iter_mut();
    let mut states: HashMap<u32, State> = HashMap::new();
    for (stamp, claim) in (1..).zip(claims(list).flatten()) {
        let state = states.entry(claim.cn).or_default();
        let numbers = Numbers::new(stamp, &claim, *state);
        *state = numbers.state_after();
        for (ct, row) in (0..=numbers.last_ct()).zip(&mut rows) {
            numbers.row(ct).write(row);
        }
    }
}

#[cfg(test)]
mod tests {
    use super::*;
    use crate::claim::Claim;
    use crate::list_vectors::SAMPLE;
    use crate::make::make;

    const MSTORE8_AT_0: &str = "cn=2 op=53 at1=0 len1=0 at2=0 len2=0\n";
    const OUT_OF_BOUNDS: &str = "cn=2 op=51 at1=ffffe0 len1=0 at2=0 len2=0\n";
    /// A byte that no cell of the traces here holds.
    const OLD: u8 = 0xb7;

    /// The answer for a buffer of so many bytes, and what the buffer then holds.
    fn filled(list: &str, empty_rows: u64, bytes: usize) -> (Result<usize, Refusal>, Vec<u8>) {
        let mut buffer = vec![OLD; bytes];
        (fill(list.as_bytes(), empty_rows, &mut buffer), buffer)
    }

    /// The refusal for a buffer of so many bytes, which must stay as they are.
    fn refused(list: &str, empty_rows: u64, bytes: usize) -> Refusal {
        let (answer, buffer) = filled(list, empty_rows, bytes);
        assert!(buffer.iter().all(|&byte| byte == OLD), "bytes of the buffer changed");
        answer.expect_err("the list is refused")
    }

    /// Worked out by hand: one byte is one word, which costs 3, and the first byte of memory is what it is over.
    #[test]
    fn a_first_byte_stored_byte_by_byte() {
        let (answer, buffer) = filled(MSTORE8_AT_0, 2, 5 * ROW_BYTES + 1);
        assert_eq!(answer, Ok(5));
        // STAMP, CN, END1, MEMN, COSTN, GAS, COMP, ENDMAX and FLAG by their last byte.
        let same = [(3, 1), (7, 2), (26, 1), (71, 1), (79, 3), (83, 3), (84, 1), (91, 1), (92, 1)];
        // CT and AUX1; and CT, BYTE1, ACC1, DBYTE, DACC and the last byte of the square.
        let of_row: [&[(usize, u8)]; 3] =
            [&[], &[(9, 1), (112, 224)], &[(9, 2), (44, 1), (62, 1), (85, 1), (88, 1), (113, 1)]];
        let mut meant = vec![0; 5 * ROW_BYTES];
        for (row, own) in (2..).zip(of_row) {
            for &(place, byte) in same.iter().chain(own) {
                meant[row * ROW_BYTES + place] = byte;
            }
        }
        assert_eq!(buffer, [&meant[..], &[OLD]].concat());
    }

    #[test]
    fn the_sample_of_the_document_fills_33_rows() {
        let (answer, buffer) = filled(SAMPLE, 1, 35 * ROW_BYTES);
        assert_eq!(answer, Ok(33));
        let claims = [
            Claim::small(1, 32, 0),
            Claim::small(2, 1, 0),
            Claim::small(1, 705, 0),
            Claim::small(1, 0, 0),
            Claim::small(2, 0, 64),
            Claim::small(2, 0x0100_0000, 0),
        ];
        let (trace, behind) = buffer.split_at(33 * ROW_BYTES);
        assert_eq!(trace, make(1, &claims));
        assert!(behind.iter().all(|&byte| byte == OLD));
    }

    #[test]
    fn a_buffer_holds_the_trace_to_the_byte() {
        let rows = 2 + 3 + 17;
        let list = [MSTORE8_AT_0, OUT_OF_BOUNDS].concat();
        assert_eq!(filled(&list, 2, rows * ROW_BYTES).0, Ok(rows));
        assert_eq!(refused(&list, 2, rows * ROW_BYTES - 1), BUFFER_SHORT);
        assert_eq!(refused(&list, 2, 0), BUFFER_SHORT);
        assert_eq!(refused("", 1, ROW_BYTES - 1), BUFFER_SHORT);
    }

    #[test]
    fn rows_are_counted_up_to_the_limit() {
        let room = (MAX_ROWS + 1) * ROW_BYTES;
        let full = MSTORE8_AT_0.repeat(21_845);
        assert_eq!(filled(&full, 1, room).0, Ok(MAX_ROWS));
        assert_eq!(refused(&full, 2, room), TOO_MANY_ROWS);
        assert_eq!(refused(&(full + MSTORE8_AT_0), 1, room), TOO_MANY_ROWS);
        assert_eq!(filled(&OUT_OF_BOUNDS.repeat(3_855), 1, room).0, Ok(MAX_ROWS));
        assert_eq!(filled("", 65_536, room).0, Ok(MAX_ROWS));
        assert_eq!(refused("", 65_537, room), TOO_MANY_ROWS);
    }

    #[test]
    fn no_count_of_empty_rows_overflows() {
        for empty_rows in [1 << 32, 1 << 57, 1 << 63, u64::MAX - 2, u64::MAX] {
            assert_eq!(refused("", empty_rows, ROW_BYTES), TOO_MANY_ROWS);
            assert_eq!(refused(MSTORE8_AT_0, empty_rows, 4 * ROW_BYTES), TOO_MANY_ROWS);
        }
    }

    #[test]
    fn refusals_come_in_the_order_of_their_numbers() {
        let bad_line = |number, line| Refusal { number, line };
        let unused = "cn=1 op=59 at1=0 len1=0 at2=0 len2=1\n";
        let most = " ".repeat(MAX_LIST);
        assert_eq!(refused(&(most.clone() + " "), 0, 0), LIST_TOO_LONG);
        assert_eq!(refused(&most, 0, 0), NO_EMPTY_ROWS);
        assert_eq!(refused(&most, 1, 0), bad_line(3, 1));
        assert_eq!(refused(&[unused, "cn=1"].concat(), u64::MAX, 0), bad_line(6, 1));
        assert_eq!(refused(&(MSTORE8_AT_0.repeat(30_000) + unused), 1, 0), bad_line(6, 30_001));
        assert_eq!(refused(&MSTORE8_AT_0.repeat(30_000), 1, 0), TOO_MANY_ROWS);
    }
}

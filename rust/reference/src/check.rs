//! The checker: judges a trace row by row and constraint by constraint, in the order and by the numbers of document 01.

use std::collections::HashMap;

use crate::cycle::{BOUND, State, last_ct};
use crate::row::{ROW_BYTES, Row};
use crate::wide::Wide;

/// A trace has at most so many rows.
pub const MAX_ROWS: usize = 65_536;

/// What the checker answers.
#[derive(Clone, Copy, Debug, PartialEq, Eq)]
pub enum Verdict {
    /// Every constraint holds.
    Accepted {
        /// Cycles in the trace.
        instructions: u32,
        /// Those of them that are out of bounds.
        oob: u32,
        /// Rows with STAMP 0.
        empty: u32,
    },
    /// A constraint does not hold.
    Broken {
        /// The first row, from 0, in which one is broken.
        row: u32,
        /// The lowest number of those broken in it.
        constraint: u8,
    },
    /// The bytes are not the rows of a trace.
    Refused {
        /// The refusal's number.
        number: u8,
    },
}

/// Judges the bytes of a trace.
pub fn check(trace: &[u8]) -> Verdict {
    let (rows, rest) = trace.as_chunks::<ROW_BYTES>();
    if rows.is_empty() || !rest.is_empty() {
        return Verdict::Refused { number: 9 };
    }
    if rows.len() > MAX_ROWS {
        return Verdict::Refused { number: 10 };
    }
    let mut ledger = Ledger::default();
    let mut before = Row::default();
    let mut two_before = Row::default();
    for (index, bytes) in rows.iter().enumerate() {
        let row = Row::from_bytes(bytes);
        let place = Place {
            row: &row,
            before: &before,
            two_before: &two_before,
            first: index == 0,
            last: index + 1 == rows.len(),
        };
        if let Err(constraint) = place.judge(&ledger) {
            let row = index as u32;
            return Verdict::Broken { row, constraint };
        }
        ledger.enter(&row);
        (two_before, before) = (before, row);
    }
    ledger.accepted()
}

/// What the rows judged so far add up to; all of them meet the constraints.
#[derive(Default)]
struct Ledger {
    states: HashMap<u32, State>,
    instructions: u32,
    oob: u32,
    empty: u32,
}

impl Ledger {
    /// The state in which the latest cycle of a context left it.
    fn state(&self, cn: u32) -> State {
        self.states.get(&cn).copied().unwrap_or_default()
    }

    fn enter(&mut self, row: &Row) {
        if row.stamp == 0 {
            self.empty += 1;
        } else if row.ct == last_ct(row.ooob) {
            self.instructions += 1;
            self.oob += u32::from(row.ooob);
            let state = State { mem: row.memn, cost: row.costn };
            self.states.insert(row.cn, state);
        }
    }

    fn accepted(&self) -> Verdict {
        Verdict::Accepted { instructions: self.instructions, oob: self.oob, empty: self.empty }
    }
}

/// Nothing if every constraint looked at holds, else the number of the first that does not.
type Judgement = Result<(), u8>;

fn demand(constraint: u8, holds: bool) -> Judgement {
    if holds { Ok(()) } else { Err(constraint) }
}

/// Whether `sum` is the byte at the start of a cycle, and 256 times the sum before plus the byte further on.
fn sums_up(ct: u8, byte: u8, before: u32, sum: u32) -> bool {
    let carried = if ct == 0 { 0 } else { u64::from(before) };
    u64::from(sum) == 256 * carried + u64::from(byte)
}

/// A row among those that it is judged by. Before row 0 stand rows of zeros.
struct Place<'a> {
    row: &'a Row,
    before: &'a Row,
    two_before: &'a Row,
    first: bool,
    last: bool,
}

impl Place<'_> {
    fn judge(&self, ledger: &Ledger) -> Judgement {
        let row = self.row;
        self.frame()?;
        if row.stamp == 0 {
            return Ok(());
        }
        self.carried(ledger)?;
        if row.ooob == 0 {
            self.sums()?;
            self.choices()?;
            if row.ct == last_ct(row.ooob) {
                self.differences()?;
                self.price()?;
            }
            let first_aux1_is_zero = row.ct != 0 || row.aux1 == 0;
            demand(23, if row.flag == 1 { first_aux1_is_zero } else { self.price_cells_are_zero() })?;
        } else {
            self.out_of_bounds()?;
        }
        demand(26, !self.last || row.ct == last_ct(row.ooob))
    }

    /// 1 to 6: how rows make up empty rows and cycles.
    fn frame(&self) -> Judgement {
        let (row, before) = (self.row, self.before);
        demand(1, row.ooob <= 1)?;
        demand(2, !self.first || row.stamp == 0)?;
        demand(3, self.first || self.stamp_follows())?;
        let starts = row.stamp == 0 || row.stamp != before.stamp;
        let ct = if starts { 0 } else { u32::from(before.ct) + 1 };
        demand(4, u32::from(row.ct) == ct)?;
        let ooob_stays = starts || row.ooob == before.ooob;
        demand(5, if row.stamp == 0 { row.ooob == 0 } else { ooob_stays })?;
        demand(6, row.stamp != 0 || *row == Row::default())
    }

    fn stamp_follows(&self) -> bool {
        let (stamp, before) = (self.row.stamp, self.before);
        if before.stamp == 0 {
            stamp <= 1
        } else if before.ct != last_ct(before.ooob) {
            stamp == before.stamp
        } else {
            Some(stamp) == before.stamp.checked_add(1)
        }
    }

    /// 7 to 10: what holds in every cycle.
    fn carried(&self, ledger: &Ledger) -> Judgement {
        let (row, before) = (self.row, self.before);
        demand(7, row.cn != 0)?;
        demand(8, row.ct == 0 || self.constants_stay())?;
        let state = State { mem: row.mem, cost: row.cost };
        demand(9, row.ct != 0 || state == ledger.state(row.cn))?;
        let carried = if row.ct == 0 { Wide::ZERO } else { before.acc1 };
        demand(10, Some(row.acc1) == carried.checked_append(row.byte1))
    }

    fn constants_stay(&self) -> bool {
        let (row, before) = (self.row, self.before);
        row.cn == before.cn
            && row.end1 == before.end1
            && row.end2 == before.end2
            && row.mem == before.mem
            && row.memn == before.memn
            && row.cost == before.cost
            && row.costn == before.costn
            && row.gas == before.gas
            && row.comp == before.comp
            && row.endmax == before.endmax
            && row.flag == before.flag
            && row.q1 == before.q1
            && row.q2 == before.q2
    }

    /// 11 to 14: the sums of an instruction in bounds.
    fn sums(&self) -> Judgement {
        let (row, before) = (self.row, self.before);
        let ct = row.ct;
        demand(11, sums_up(ct, row.byte2, before.acc2, row.acc2))?;
        demand(12, sums_up(ct, row.dbyte, before.dacc, row.dacc))?;
        demand(13, sums_up(ct, row.ebyte, before.eacc, row.eacc))?;
        let priced =
            sums_up(ct, row.q1byte, before.q1acc, row.q1acc) && sums_up(ct, row.q2byte, before.q2acc, row.q2acc);
        demand(14, row.flag != 1 || priced)
    }

    /// 15 to 17: which end counts, and whether memory grows up to it.
    fn choices(&self) -> Judgement {
        let row = self.row;
        demand(15, row.comp <= 1 && row.flag <= 1)?;
        let chosen = if row.comp == 1 { row.end1 } else { row.end2 };
        demand(16, Wide::from(row.endmax) == chosen)?;
        demand(17, if row.flag == 1 { self.grows() } else { self.stays() })
    }

    fn stays(&self) -> bool {
        let row = self.row;
        row.memn == row.mem && row.costn == row.cost && row.gas == 0
    }

    fn grows(&self) -> bool {
        let row = self.row;
        let costn = u64::from(row.costn);
        row.memn == row.endmax
            && costn == 3 * (1 + u64::from(row.q1)) + u64::from(row.q2)
            && costn == u64::from(row.cost) + u64::from(row.gas)
    }

    /// 18 to 20, at the end of a cycle in bounds: the sums are the ends and the differences that show the choices
    /// right.
    fn differences(&self) -> Judgement {
        let row = self.row;
        demand(18, row.acc1 == row.end1 && Wide::from(row.acc2) == row.end2)?;
        let one = Wide::from(1u8);
        let gap = if row.comp == 1 {
            row.end1.checked_sub(row.end2)
        } else {
            row.end2.checked_sub(row.end1).and_then(|gap| gap.checked_sub(one))
        };
        demand(19, Some(Wide::from(row.dacc)) == gap)?;
        let excess = if row.flag == 1 {
            row.endmax.checked_sub(row.mem).and_then(|excess| excess.checked_sub(1))
        } else {
            row.mem.checked_sub(row.endmax)
        };
        demand(20, Some(row.eacc) == excess)
    }

    /// 21 and 22, at the end of a cycle in which memory grows: words and cost are those of the end.
    fn price(&self) -> Judgement {
        let (row, before) = (self.row, self.before);
        if row.flag != 1 {
            return Ok(());
        }
        let q1 = u64::from(row.q1);
        let aux1 = u64::from(row.aux1);
        let divided = row.q1acc == row.q1
            && u64::from(before.aux1) == aux1 + 224
            && row.endmax.checked_sub(1).map(u64::from) == Some(32 * q1 + aux1);
        demand(21, divided)?;
        let q2 = u64::from(row.q2);
        let bit = self.two_before.aux2;
        let squared = bit <= 1
            && q2 == u64::from(row.q2acc) + (u64::from(before.aux2) << 24)
            && (1 + q1) * (1 + q1) == 512 * q2 + 256 * u64::from(bit) + u64::from(row.aux2);
        demand(22, squared)
    }

    fn price_cells_are_zero(&self) -> bool {
        let row = self.row;
        let q1 = row.q1 == 0 && row.q1byte == 0 && row.q1acc == 0;
        let q2 = row.q2 == 0 && row.q2byte == 0 && row.q2acc == 0;
        q1 && q2 && row.aux1 == 0 && row.aux2 == 0
    }

    /// 24 and 25: an instruction out of bounds changes nothing and shows an end to be out of bounds.
    fn out_of_bounds(&self) -> Judgement {
        let row = self.row;
        demand(24, self.stays() && self.in_bounds_cells_are_zero())?;
        let end = if row.end1 >= BOUND { row.end1 } else { row.end2 };
        let ends = row.ct == last_ct(row.ooob);
        demand(25, !ends || Some(row.acc1) == end.checked_sub(BOUND))
    }

    fn in_bounds_cells_are_zero(&self) -> bool {
        let row = self.row;
        let sums = row.byte2 == 0 && row.acc2 == 0 && row.dbyte == 0 && row.dacc == 0;
        let choices = row.comp == 0 && row.endmax == 0 && row.flag == 0;
        let excess = row.ebyte == 0 && row.eacc == 0;
        sums && choices && excess && self.price_cells_are_zero()
    }
}

#[cfg(test)]
mod tests {
    use super::*;

    #[test]
    fn part_of_a_row_is_refused_before_too_many_rows() {
        let bytes = vec![0; (MAX_ROWS + 1) * ROW_BYTES];
        for part in [0, 1, ROW_BYTES - 1, ROW_BYTES + 1, bytes.len() - 1] {
            assert_eq!(check(&bytes[..part]), Verdict::Refused { number: 9 }, "{part} bytes");
        }
        assert_eq!(check(&bytes), Verdict::Refused { number: 10 });
        let empty = MAX_ROWS as u32;
        let all_empty = Verdict::Accepted { instructions: 0, oob: 0, empty };
        assert_eq!(check(&bytes[..MAX_ROWS * ROW_BYTES]), all_empty);
    }

    #[test]
    fn sums_do_not_wrap() {
        assert!(sums_up(0, 7, 0x00ff_ffff, 7));
        assert!(sums_up(1, 7, 0x0102, 0x0001_0207));
        assert!(!sums_up(1, 7, 0x0102_0304, 0x0203_0407));
        assert!(!sums_up(2, 0, 1 << 24, 0));
    }
}

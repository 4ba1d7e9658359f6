//! The numbers of the cycle of a claim, and from them each of its rows. The maker and the filler of traces both take
//! their rows from here.

use crate::claim::Claim;
use crate::cycle::{BOUND, State, last_ct};
use crate::price::Price;
use crate::row::Row;
use crate::sum::{part, wide_part};
use crate::wide::Wide;

/// What the rows of a cycle are made from.
pub struct Numbers {
    /// The cells that are the same in all of them, but for those of a price.
    same: Row,
    /// What their bytes sum up to.
    totals: Totals,
}

/// What the bytes of a cycle sum up to.
enum Totals {
    /// In bounds.
    Within {
        end1: u32,
        end2: u32,
        /// The difference of the ends.
        gap: u32,
        /// The difference of the greater end and what was reached before.
        excess: u32,
        /// What is paid if memory grows.
        price: Option<Price>,
    },
    /// Out of bounds.
    Beyond {
        /// What an end has over the bound.
        over: Wide,
    },
}

impl Numbers {
    /// The numbers of the cycle of a claim whose context stands at `before`.
    #[inline]
    pub fn new(stamp: u32, claim: &Claim, before: State) -> Numbers {
        let &Claim { cn, end1, end2 } = claim;
        let State { mem, cost } = before;
        let unmoved = Row { stamp, cn, end1, end2, mem, memn: mem, cost, costn: cost, ..Row::default() };
        match (u32::try_from(end1), u32::try_from(end2)) {
            (Ok(end1), Ok(end2)) if claim.in_bounds() => Numbers::within(unmoved, end1, end2),
            _ => Numbers::beyond(unmoved),
        }
    }

    #[inline]
    fn within(unmoved: Row, end1: u32, end2: u32) -> Numbers {
        let comp = end1 >= end2;
        let endmax = end1.max(end2);
        let flag = endmax > unmoved.mem;
        let gap = if comp { end1 - end2 } else { end2 - end1 - 1 };
        let excess = if flag { endmax - unmoved.mem - 1 } else { unmoved.mem - endmax };
        let price = flag.then(|| Price::of_end(endmax));
        let same = Row { comp: u8::from(comp), endmax, flag: u8::from(flag), ..unmoved };
        Numbers { same, totals: Totals::Within { end1, end2, gap, excess, price } }
    }

    #[inline]
    fn beyond(unmoved: Row) -> Numbers {
        let end = if unmoved.end1 >= BOUND { unmoved.end1 } else { unmoved.end2 };
        Numbers { same: Row { ooob: 1, ..unmoved }, totals: Totals::Beyond { over: end.wrapping_sub(BOUND) } }
    }

    /// E, the last CT of the cycle.
    #[inline]
    pub fn last_ct(&self) -> u8 {
        last_ct(self.same.ooob)
    }

    /// The row with this CT, which is at most E.
    #[inline]
    pub fn row(&self, ct: u8) -> Row {
        let mut row = Row { ct, ..self.same };
        let after = self.last_ct() - ct;
        match self.totals {
            Totals::Within { end1, end2, gap, excess, price } => {
                let (byte1, acc1) = part(end1, after);
                (row.byte1, row.acc1) = (byte1, acc1.into());
                (row.byte2, row.acc2) = part(end2, after);
                (row.dbyte, row.dacc) = part(gap, after);
                (row.ebyte, row.eacc) = part(excess, after);
                if let Some(price) = price {
                    price.charge(ct, &mut row);
                }
            }
            Totals::Beyond { over } => (row.byte1, row.acc1) = wide_part(over, after),
        }
        row
    }

    /// The state in which the cycle leaves its context.
    #[inline]
    pub fn state_after(&self) -> State {
        match self.totals {
            Totals::Within { price: Some(price), .. } => State { mem: self.same.endmax, cost: price.cost() },
            _ => State { mem: self.same.mem, cost: self.same.cost },
        }
    }
}

#[cfg(test)]
mod tests {
    use super::*;

    fn rows(numbers: &Numbers) -> Vec<Row> {
        (0..=numbers.last_ct()).map(|ct| numbers.row(ct)).collect()
    }

    /// Worked out by hand: 33 bytes are two words with a rest of 0, and two words cost 3*2 + 4/512.
    #[test]
    fn a_first_instruction_that_reaches_33_bytes_cell_by_cell() {
        let same = Row {
            stamp: 1,
            cn: 9,
            end1: 33u8.into(),
            memn: 33,
            costn: 6,
            gas: 6,
            comp: 1,
            endmax: 33,
            flag: 1,
            q1: 1,
            ..Row::default()
        };
        let last = Row { byte1: 33, acc1: 33u8.into(), dbyte: 33, dacc: 33, ebyte: 32, eacc: 32, ct: 2, ..same };
        let last = Row { q1byte: 1, q1acc: 1, aux1: 0, aux2: 4, ..last };
        let numbers = Numbers::new(1, &Claim::small(9, 33, 0), State::default());
        assert_eq!(rows(&numbers), [same, Row { ct: 1, aux1: 224, ..same }, last]);
        assert_eq!(numbers.state_after(), State { mem: 33, cost: 6 });
    }

    /// Worked out by hand: the second end is the greater by 0x01_0203, less one, and 5 bytes short of what was reached.
    #[test]
    fn an_instruction_within_what_was_reached_cell_by_cell() {
        let before = State { mem: 0x04_0708, cost: 77 };
        let numbers = Numbers::new(7, &Claim::small(2, 0x03_0500, 0x04_0703), before);
        let same = Row { stamp: 7, cn: 2, end1: 0x03_0500u32.into(), end2: 0x04_0703u32.into(), ..Row::default() };
        let same = Row { mem: before.mem, memn: before.mem, cost: 77, costn: 77, endmax: 0x04_0703, ..same };
        let first = Row { byte1: 3, acc1: 3u8.into(), byte2: 4, acc2: 4, dbyte: 1, dacc: 1, ..same };
        let second = Row { ct: 1, byte1: 5, acc1: 0x0305u32.into(), byte2: 7, acc2: 0x0407, ..same };
        let second = Row { dbyte: 2, dacc: 0x0102, ..second };
        let last = Row { ct: 2, byte1: 0, acc1: same.end1, byte2: 3, acc2: 0x04_0703, ..same };
        let last = Row { dbyte: 2, dacc: 0x01_0202, ebyte: 5, eacc: 5, ..last };
        assert_eq!(rows(&numbers), [first, second, last]);
        assert_eq!(numbers.state_after(), before);
    }

    /// Worked out by hand: 256 over the bound are two bytes, in the last two of 17 rows.
    #[test]
    fn an_instruction_out_of_bounds_cell_by_cell() {
        let claim = Claim { cn: 9, end1: 5u8.into(), end2: 0x0100_0100u32.into() };
        let before = State { mem: 33, cost: 6 };
        let numbers = Numbers::new(4, &claim, before);
        let cycle = rows(&numbers);
        let same = Row { stamp: 4, cn: 9, ooob: 1, end1: claim.end1, end2: claim.end2, ..Row::default() };
        let same = Row { mem: 33, memn: 33, cost: 6, costn: 6, ..same };
        assert_eq!(cycle.len(), 17);
        for (row, ct) in cycle[..15].iter().zip(0..) {
            assert_eq!(*row, Row { ct, ..same });
        }
        assert_eq!(cycle[15], Row { ct: 15, byte1: 1, acc1: 1u8.into(), ..same });
        assert_eq!(cycle[16], Row { ct: 16, byte1: 0, acc1: 256u32.into(), ..same });
        assert_eq!(numbers.state_after(), before);
    }

    #[test]
    fn costs_by_end_are_those_of_the_table() {
        let table = [(0, 0), (1, 3), (32, 3), (33, 6), (704, 66), (705, 70), (1_024, 98), (16_777_215, 538_443_776)];
        for (end, cost) in table {
            let numbers = Numbers::new(1, &Claim::small(1, end, 0), State::default());
            assert_eq!(numbers.state_after(), State { mem: end, cost }, "end {end}");
            assert_eq!((numbers.row(0).memn, numbers.row(2).costn), (end, cost), "end {end}");
        }
    }

    #[test]
    fn an_end_at_the_bound_takes_17_rows() {
        let of = |claim: &Claim| rows(&Numbers::new(1, claim, State::default()));
        assert_eq!(of(&Claim::small(1, 0x00ff_ffff, 0x00ff_ffff)).len(), 3);
        for at in [Claim::small(1, 0x0100_0000, 0), Claim::small(1, 0, 0x0100_0000)] {
            let cycle = of(&at);
            assert_eq!(cycle.len(), 17);
            assert!(cycle.iter().all(|row| row.acc1 == Wide::ZERO));
        }
    }
}

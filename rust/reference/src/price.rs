//! What it costs to reach an end: the division of the end into words and of their square, as the rows show it.

use crate::row::Row;
use crate::sum::part;

/// The division of an end that is not 0 into words, and of the square of their count as the cost needs it.
#[derive(Clone, Copy, Debug, PartialEq, Eq)]
pub struct Price {
    /// One less than the count of words.
    pub q1: u32,
    /// Bytes of the last word, less one.
    pub rest: u8,
    /// The square of the count of words, divided by 512 and rounded down.
    pub q2: u32,
    /// Whether what that leaves of the square reaches 256.
    pub e: u8,
    /// The lowest byte of the square.
    pub low: u8,
}

impl Price {
    /// The price of reaching an end that is not 0.
    pub fn of_end(end: u32) -> Price {
        Price::of_words((end - 1) / 32, ((end - 1) % 32) as u8)
    }

    /// The price of 1+`q1` words, with any rest.
    pub fn of_words(q1: u32, rest: u8) -> Price {
        let words = 1 + u64::from(q1);
        let [.., e, low] = (words * words % 512).to_be_bytes();
        let q2 = u32::try_from(words * words / 512);
        Price { q1, rest, q2: q2.expect("a square below 2^41"), e, low }
    }

    /// The gas for the words in all, modulo 2^32.
    pub fn cost(&self) -> u32 {
        (3 * (1 + self.q1)).wrapping_add(self.q2)
    }

    /// Lets the row of a cycle in bounds with this CT reach its ENDMAX at this price.
    pub fn charge(&self, ct: u8, row: &mut Row) {
        let after = 2 - ct;
        row.memn = row.endmax;
        row.costn = self.cost();
        row.gas = row.costn.wrapping_sub(row.cost);
        row.q1 = self.q1;
        row.q2 = self.q2;
        (row.q1byte, row.q1acc) = part(self.q1, after);
        (row.q2byte, row.q2acc) = part(self.q2 & 0x00ff_ffff, after);
        row.aux1 = self.aux1()[usize::from(ct)];
        row.aux2 = self.aux2()[usize::from(ct)];
    }

    /// The cells of AUX1 in the three rows.
    fn aux1(&self) -> [u8; 3] {
        [0, self.rest.wrapping_add(224), self.rest]
    }

    /// The cells of AUX2 in the three rows.
    fn aux2(&self) -> [u8; 3] {
        [self.e, self.q2.to_be_bytes()[0], self.low]
    }
}

#[cfg(test)]
mod tests {
    use super::*;

    #[test]
    fn squares_split_as_the_table_says() {
        let table = [(17, (0, 1, 33)), (23, (1, 0, 17)), (524_288, (536_870_912, 0, 0))];
        for (words, split) in table {
            let price = Price::of_words(words - 1, 0);
            assert_eq!((price.q2, price.e, price.low), split, "{words} words");
        }
    }

    #[test]
    fn the_rest_of_an_end_stands_in_aux1() {
        assert_eq!(Price::of_end(64).aux1(), [0, 255, 31]);
        assert_eq!(Price::of_end(65).aux1(), [0, 224, 0]);
    }

    /// Worked out by hand: 705 bytes are 22 words and a byte, and 23 words cost 3*23 + 529/512, of which 3 are paid.
    #[test]
    fn a_row_reaches_its_endmax_at_the_price() {
        let mut row = Row { endmax: 705, mem: 32, cost: 3, ..Row::default() };
        Price::of_end(705).charge(2, &mut row);
        assert_eq!((row.memn, row.costn, row.gas), (705, 70, 67));
        assert_eq!((row.q1, row.q1byte, row.q1acc), (22, 22, 22));
        assert_eq!((row.q2, row.q2byte, row.q2acc), (1, 1, 1));
        assert_eq!((row.aux1, row.aux2), (0, 17));
    }
}

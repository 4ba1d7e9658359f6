//! The row: thirty columns in 114 bytes, big-endian. The table at the end of the macro is the only place that knows
//! their order, widths and names.

use crate::wide::Wide;

/// A cell of one to 17 bytes.
trait Cell: Sized {
    /// The number that all of `bytes` write.
    fn read(bytes: &[u8]) -> Self;
    /// The number in as many bytes as `bytes` has.
    fn write(self, bytes: &mut [u8]);
}

impl Cell for u8 {
    fn read(bytes: &[u8]) -> u8 {
        bytes[0]
    }

    fn write(self, bytes: &mut [u8]) {
        bytes[0] = self;
    }
}

impl Cell for u32 {
    fn read(bytes: &[u8]) -> u32 {
        bytes.iter().fold(0, |number, &byte| number << 8 | u32::from(byte))
    }

    fn write(self, bytes: &mut [u8]) {
        bytes.copy_from_slice(lowest(&self.to_be_bytes(), bytes.len()));
    }
}

impl Cell for Wide {
    fn read(bytes: &[u8]) -> Wide {
        Wide::from_be_bytes(bytes.try_into().expect("a wide cell has 17 bytes"))
    }

    fn write(self, bytes: &mut [u8]) {
        bytes.copy_from_slice(&self.to_be_bytes());
    }
}

/// The last `width` of big-endian `bytes`; those before them must be 0, or the cell would hold another number.
fn lowest(bytes: &[u8], width: usize) -> &[u8] {
    let (over, cell) = bytes.split_at(bytes.len() - width);
    assert!(over.iter().all(|&byte| byte == 0), "{bytes:?} is wider than a cell of {width} bytes");
    cell
}

macro_rules! columns {
    ($($name:ident $field:ident: $cell:ty, $width:literal;)*) => {
        /// The bytes of a row.
        pub const ROW_BYTES: usize = 0 $(+ $width)*;

        /// The columns, by document 01's own names and in its order.
        #[allow(clippy::upper_case_acronyms)]
        #[derive(Clone, Copy, Debug, PartialEq, Eq, PartialOrd, Ord)]
        pub enum Column {
            $(#[doc = concat!(stringify!($width), " bytes wide.")] $name,)*
        }

        impl Column {
            /// All of them, in order.
            pub const ALL: &[Column] = &[$(Column::$name,)*];

            /// How many bytes a cell of this column has.
            pub const fn width(self) -> usize {
                match self { $(Column::$name => $width,)* }
            }

            /// The column's name in small letters.
            pub const fn name(self) -> &'static str {
                match self { $(Column::$name => stringify!($field),)* }
            }
        }

        /// The cells of one row as numbers.
        #[derive(Clone, Copy, Debug, Default, PartialEq, Eq)]
        pub struct Row {
            $(#[doc = concat!("The cell of ", stringify!($name), ".")] pub $field: $cell,)*
        }

        impl Row {
            /// The row that the bytes write.
            pub fn from_bytes(bytes: &[u8; ROW_BYTES]) -> Row {
                let rest = bytes.as_slice();
                $(let (cell, rest) = rest.split_at($width);
                let $field = Cell::read(cell);)*
                debug_assert!(rest.is_empty());
                Row { $($field,)* }
            }

            /// Writes the row into its bytes.
            #[inline]
            pub fn write(&self, bytes: &mut [u8; ROW_BYTES]) {
                let rest = bytes.as_mut_slice();
                $(let (cell, rest) = rest.split_at_mut($width);
                self.$field.write(cell);)*
                debug_assert!(rest.is_empty());
            }

            /// The cell of a column.
            pub fn get(&self, column: Column) -> Wide {
                match column { $(Column::$name => Wide::from(self.$field),)* }
            }

            /// Puts a number, which must fit, into the cell of a column.
            pub fn set(&mut self, column: Column, number: Wide) {
                let bytes = number.to_be_bytes();
                let cell = lowest(&bytes, column.width());
                match column { $(Column::$name => self.$field = Cell::read(cell),)* }
            }
        }
    };
}

columns! {
    STAMP stamp: u32, 4;
    CN cn: u32, 4;
    OOOB ooob: u8, 1;
    CT ct: u8, 1;
    END1 end1: Wide, 17;
    END2 end2: Wide, 17;
    BYTE1 byte1: u8, 1;
    BYTE2 byte2: u8, 1;
    ACC1 acc1: Wide, 17;
    ACC2 acc2: u32, 3;
    MEM mem: u32, 3;
    MEMN memn: u32, 3;
    COST cost: u32, 4;
    COSTN costn: u32, 4;
    GAS gas: u32, 4;
    COMP comp: u8, 1;
    DBYTE dbyte: u8, 1;
    DACC dacc: u32, 3;
    ENDMAX endmax: u32, 3;
    FLAG flag: u8, 1;
    EBYTE ebyte: u8, 1;
    EACC eacc: u32, 3;
    Q1 q1: u32, 3;
    Q1BYTE q1byte: u8, 1;
    Q1ACC q1acc: u32, 3;
    Q2 q2: u32, 4;
    Q2BYTE q2byte: u8, 1;
    Q2ACC q2acc: u32, 3;
    AUX1 aux1: u8, 1;
    AUX2 aux2: u8, 1;
}

impl Row {
    /// The row in bytes.
    pub fn to_bytes(&self) -> [u8; ROW_BYTES] {
        let mut bytes = [0; ROW_BYTES];
        self.write(&mut bytes);
        bytes
    }
}

/// Where in a row the cell of each column starts.
const STARTS: [usize; Column::ALL.len()] = {
    let mut starts = [0; Column::ALL.len()];
    let mut column = 1;
    while column < starts.len() {
        starts[column] = starts[column - 1] + Column::ALL[column - 1].width();
        column += 1;
    }
    starts
};

impl Column {
    /// The bytes of this column's cell among those of a row.
    #[inline]
    fn cell_in(self, row: &[u8; ROW_BYTES]) -> &[u8] {
        &row[STARTS[self as usize]..][..self.width()]
    }

    /// The largest number that a cell of this column holds.
    pub fn largest(self) -> Wide {
        let mut bytes = [0; Wide::BYTES];
        bytes[Wide::BYTES - self.width()..].fill(u8::MAX);
        Wide::from_be_bytes(bytes)
    }

    /// The highest bit of a cell of this column.
    pub fn highest_bit(self) -> Wide {
        let mut bytes = [0; Wide::BYTES];
        bytes[Wide::BYTES - self.width()] = 0x80;
        Wide::from_be_bytes(bytes)
    }
}

/// STAMP of a row, without reading its other cells.
#[inline]
pub fn stamp_of(row: &[u8; ROW_BYTES]) -> u32 {
    Cell::read(Column::STAMP.cell_in(row))
}

/// CN of a row, without reading its other cells.
#[inline]
pub fn cn_of(row: &[u8; ROW_BYTES]) -> u32 {
    Cell::read(Column::CN.cell_in(row))
}

/// OOOB of a row, without reading its other cells.
#[inline]
pub fn ooob_of(row: &[u8; ROW_BYTES]) -> u8 {
    Cell::read(Column::OOOB.cell_in(row))
}

/// The bytes of rows, one row after another.
pub fn to_bytes(rows: &[Row]) -> Vec<u8> {
    rows.iter().flat_map(Row::to_bytes).collect()
}

/// The first row of each cycle in the bytes of a trace.
pub fn first_rows(trace: &[u8]) -> impl Iterator<Item = Row> {
    let rows = trace.as_chunks().0.iter().map(Row::from_bytes);
    rows.filter(|row| row.stamp != 0 && row.ct == 0)
}

#[cfg(test)]
mod tests {
    use super::*;

    #[test]
    fn thirty_columns_in_114_bytes() {
        assert_eq!(Column::ALL.len(), 30);
        assert_eq!(ROW_BYTES, 114);
    }

    #[test]
    fn bytes_come_back_from_the_row() {
        let bytes = std::array::from_fn(|place| place as u8 + 1);
        assert_eq!(Row::from_bytes(&bytes).to_bytes(), bytes);
    }

    #[test]
    fn cells_stand_one_after_another_in_order() {
        let mut at = 0;
        for &column in Column::ALL {
            let mut row = Row::default();
            row.set(column, column.largest());
            let mut bytes = [0; ROW_BYTES];
            bytes[at..at + column.width()].fill(u8::MAX);
            assert_eq!(row.to_bytes(), bytes, "{column:?}");
            assert_eq!(row.get(column), column.largest());
            at += column.width();
        }
        assert_eq!(at, ROW_BYTES);
    }

    #[test]
    fn single_cells_are_those_of_the_row() {
        let bytes = std::array::from_fn(|place| place as u8 + 1);
        let row = Row::from_bytes(&bytes);
        assert_eq!((stamp_of(&bytes), cn_of(&bytes), ooob_of(&bytes)), (row.stamp, row.cn, row.ooob));
        assert_eq!(Column::AUX2.cell_in(&bytes), [114]);
    }

    #[test]
    fn cells_are_big_endian() {
        let mut bytes = [0; ROW_BYTES];
        bytes[..4].copy_from_slice(&[1, 2, 3, 4]);
        bytes[63..66].copy_from_slice(&[5, 6, 7]);
        let row = Row::from_bytes(&bytes);
        assert_eq!(row.stamp, 0x0102_0304);
        assert_eq!(row.acc2, 0x0005_0607);
    }

    #[test]
    #[should_panic(expected = "wider than a cell of 3 bytes")]
    fn a_number_wider_than_its_cell_is_not_cut() {
        let row = Row { mem: 1 << 24, ..Row::default() };
        row.to_bytes();
    }
}

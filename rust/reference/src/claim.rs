//! The claim of an instruction: its context and the ends of what it touches.

use crate::cycle::BOUND;
use crate::row::Row;
use crate::wide::Wide;

/// A context and the two ends that an instruction touches.
#[derive(Clone, Copy, Debug, PartialEq, Eq)]
pub struct Claim {
    /// The context's number.
    pub cn: u32,
    /// The end of the first range, 0 if nothing is touched.
    pub end1: Wide,
    /// The end of the second range, 0 if nothing is touched.
    pub end2: Wide,
}

impl Claim {
    /// A claim whose ends have at most 32 bits.
    pub fn small(cn: u32, end1: u32, end2: u32) -> Claim {
        Claim { cn, end1: end1.into(), end2: end2.into() }
    }

    /// The claim that a row of an instruction states.
    pub fn of_row(row: &Row) -> Claim {
        Claim { cn: row.cn, end1: row.end1, end2: row.end2 }
    }

    /// Whether both ends are below the bound.
    pub fn in_bounds(&self) -> bool {
        self.end1 < BOUND && self.end2 < BOUND
    }

    /// OOOB of the claim's rows.
    pub fn ooob(&self) -> u8 {
        u8::from(!self.in_bounds())
    }
}

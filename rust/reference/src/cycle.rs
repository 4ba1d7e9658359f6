//! What the checker and the maker of traces both know of a cycle: how long it is, the bound on ends, and the state of a
//! context.

use crate::wide::Wide;

/// An instruction is in bounds if both its ends are below this, 2^24.
pub const BOUND: Wide = Wide::power_of_two(24);

/// Where a context stands between two of its cycles: MEMN and COSTN of the earlier, MEM and COST of the later.
#[derive(Clone, Copy, Debug, Default, PartialEq, Eq)]
pub struct State {
    /// Bytes of memory reached.
    pub mem: u32,
    /// What they have cost in all.
    pub cost: u32,
}

/// E, the last CT of a cycle with this OOOB.
pub const fn last_ct(ooob: u8) -> u8 {
    if ooob == 1 { 16 } else { 2 }
}

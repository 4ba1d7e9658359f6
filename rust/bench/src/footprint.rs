//! What memory the library's calls take beside what they are lent: stack, and requests for more.

use std::collections::BTreeMap;

use crate::Outcome;
use crate::case::Case;
use crate::{heap, stack};

/// Every call must do with less stack than this, in bytes.
pub const STACK_FLOOR: usize = 4_096;
/// Every call should do with less stack than this, in bytes.
pub const STACK_TARGET: usize = 3_584;

/// The most that a call took on any of its inputs.
#[derive(Clone, Copy, Default)]
pub struct Footprint {
    /// Bytes of stack.
    pub stack: usize,
    /// Requests for memory.
    pub allocations: u64,
}

impl Footprint {
    fn of(case: &Case) -> Outcome<Footprint> {
        let mut lent = case.lent()?;
        let mut allocations = 0;
        let stack = stack::bytes_used(&mut || {
            allocations = heap::allocations(|| case.call_library(&mut lent));
        });
        Ok(Footprint { stack, allocations })
    }

    fn most(self, with: Footprint) -> Footprint {
        Footprint { stack: self.stack.max(with.stack), allocations: self.allocations.max(with.allocations) }
    }

    /// Whether the stack stays below its floor.
    pub fn keeps_stack_floor(&self) -> bool {
        self.stack < STACK_FLOOR
    }
}

/// The footprint of each call, by the call's word, after both ways of measuring have been tried on what is known.
pub fn by_call(cases: &[Case]) -> Outcome<BTreeMap<&'static str, Footprint>> {
    stack::control()?;
    heap::control()?;
    let mut found: BTreeMap<&'static str, Footprint> = BTreeMap::new();
    for case in cases {
        let footprint = Footprint::of(case)?;
        if footprint.allocations != 0 {
            return Err(format!("{}: the library asks for memory {} times", case.name(), footprint.allocations));
        }
        let most = found.entry(case.call.names().0).or_default();
        *most = most.most(footprint);
    }
    Ok(found)
}

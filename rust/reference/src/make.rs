//! The maker of traces: the rows of the one trace that meets the constraints for a count of empty rows and a list of
//! claims, to be looked at and edited.

use std::collections::HashMap;

use crate::claim::Claim;
use crate::cycle::State;
use crate::numbers::Numbers;
use crate::price::Price;
use crate::row::{Row, to_bytes};

/// The bytes of the trace of `claims` after `empty_rows` empty rows.
pub fn make(empty_rows: usize, claims: &[Claim]) -> Vec<u8> {
    to_bytes(&make_rows(empty_rows, claims))
}

/// The rows of the trace of `claims` after `empty_rows` empty rows.
pub fn make_rows(empty_rows: usize, claims: &[Claim]) -> Vec<Row> {
    let mut rows = vec![Row::default(); empty_rows];
    let mut states = HashMap::new();
    for (stamp, claim) in (1..).zip(claims) {
        let state = states.entry(claim.cn).or_default();
        let cycle = make_cycle(stamp, claim, *state);
        *state = state_after(&cycle);
        rows.extend(cycle);
    }
    rows
}

/// The state in which a cycle leaves its context.
pub fn state_after(cycle: &[Row]) -> State {
    State { mem: cycle[0].memn, cost: cycle[0].costn }
}

/// The cycle of a claim whose context stands at `before`.
pub fn make_cycle(stamp: u32, claim: &Claim, before: State) -> Vec<Row> {
    let numbers = Numbers::new(stamp, claim, before);
    (0..=numbers.last_ct()).map(|ct| numbers.row(ct)).collect()
}

/// Lets a cycle in bounds reach its ENDMAX at a price.
pub fn pay(cycle: &mut [Row], price: &Price) {
    for (row, ct) in cycle.iter_mut().zip(0..) {
        price.charge(ct, row);
    }
}

#[cfg(test)]
mod tests {
    use super::*;

    #[test]
    fn a_context_goes_on_from_its_own_state() {
        let rows = make_rows(1, &[Claim::small(1, 64, 0), Claim::small(2, 32, 0), Claim::small(1, 96, 0)]);
        let third = rows[7];
        assert_eq!((third.mem, third.cost, third.gas), (64, 6, 3));
    }

    #[test]
    fn empty_rows_come_first_and_stamps_count_from_1() {
        let far = Claim::small(1, 0x0100_0000, 0);
        let stamps: Vec<u32> = make_rows(2, &[far, Claim::small(1, 0, 0)]).iter().map(|row| row.stamp).collect();
        assert_eq!(stamps, [&[0; 2][..], &[1; 17], &[2; 3]].concat());
    }
}

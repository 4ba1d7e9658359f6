//! Vectors for 7 to 9: the context's number, the cells that stay within a cycle, and the state carried between cycles.

use super::Vector;
use super::scenes::{LONGEST, SECOND, Scene, beyond, far_end, grown, kept, many_contexts, tour};
use crate::claim::Claim;
use crate::cycle::State;
use crate::draft::Draft;
use crate::make::state_after;
use crate::row::Column::{self, *};
use crate::wide::Wide;

/// The columns that stay within a cycle.
pub const STAYING: [Column; 13] = [CN, END1, END2, MEM, MEMN, COST, COSTN, GAS, COMP, ENDMAX, FLAG, Q1, Q2];

pub fn vectors() -> Vec<Vector> {
    [context_0(), cells_stay(), first_cycles(), later_cycles(), other_contexts(), after_out_of_bounds()].concat()
}

fn context_0() -> Vec<Vector> {
    let beyond_0 = Claim { cn: 0, end1: far_end(), end2: Wide::ZERO };
    let in_bounds = Draft::new(1, &[Claim::small(0, 64, 0)]);
    let untouched = Draft::new(1, &[Claim::small(0, 0, 0)]);
    let second = grown().set_all(2, CN, 0u8);
    vec![
        in_bounds.breaks("c07_cn_0_in_bounds", 1, 7),
        untouched.breaks("c07_cn_0_nothing_touched", 1, 7),
        Draft::new(1, &[beyond_0]).breaks("c07_cn_0_out_of_bounds", 1, 7),
        second.breaks("c07_cn_0_in_second_cycle", SECOND, 7),
        tour().set(3, CN, 0u8).breaks("c07_cn_0_at_in_bounds_ct_1", 3, 7),
        tour().set(4, CN, 0u8).breaks("c07_cn_0_at_in_bounds_ct_2", 4, 7),
        tour().set(21, CN, 0u8).breaks("c07_cn_0_at_out_of_bounds_ct_16", 21, 7),
    ]
}

/// Early in the cycle the lowest bit changes for good, in its last row the highest bit does.
fn cells_stay() -> Vec<Vector> {
    let scenes: [Scene; 3] = [("grown", grown), ("kept", kept), ("beyond", beyond)];
    let mut vectors = Vec::new();
    for (scene, draft) in scenes {
        let cycle = draft().cycle(2);
        let (early, end) = (cycle.start + 1, cycle.end - 1);
        for column in STAYING {
            let cell = column.name();
            let more = draft().rows[early].get(column).wrapping_add(1u8.into());
            let for_good = draft().set_in(early..cycle.end, column, more);
            let late = draft().change(end, column, |value| flip_highest(column, value));
            vectors.push(for_good.breaks(format!("c08_{cell}_from_ct_1_on_{scene}"), early, 8));
            vectors.push(late.breaks(format!("c08_{cell}_high_bit_in_last_row_{scene}"), end, 8));
        }
    }
    vectors
}

fn flip_highest(column: Column, value: Wide) -> Wide {
    let bit = column.highest_bit();
    if value >= bit { value.wrapping_sub(bit) } else { value.wrapping_add(bit) }
}

/// A trace of `claims` and one cycle more that goes on from `state`, which is not where its context stands.
fn goes_on_from(name: &str, claims: &[Claim], last: Claim, state: State) -> Vector {
    let draft = Draft::new(1, claims);
    let row = draft.rows.len();
    draft.then(&last, state).breaks(name, row, 9)
}

fn state(mem: u32, cost: u32) -> State {
    State { mem, cost }
}

fn far(cn: u32) -> Claim {
    Claim { cn, end1: far_end(), end2: Wide::ZERO }
}

fn first_cycles() -> Vec<Vector> {
    let growing = Claim::small(1, 96, 0);
    let staying = Claim::small(1, 0, 0);
    let first = |name, claim, state| goes_on_from(name, &[], claim, state);
    vec![
        first("c09_first_cycle_from_32_bytes", growing, state(32, 3)),
        first("c09_first_cycle_from_32_bytes_unpaid", growing, state(32, 0)),
        first("c09_first_cycle_from_cost_3", growing, state(0, 3)),
        first("c09_first_cycle_keeps_32_bytes", staying, state(32, 0)),
        first("c09_first_cycle_keeps_cost_3", staying, state(0, 3)),
        first("c09_first_cycle_out_of_bounds_from_32_bytes", far(1), state(32, 0)),
        first("c09_first_cycle_out_of_bounds_from_cost_3", far(1), state(0, 3)),
        first("c09_first_cycle_keeps_the_largest_state", staying, state(0xff_ffff, u32::MAX)),
    ]
}

fn later_cycles() -> Vec<Vector> {
    let to_64 = [Claim::small(1, 64, 0)];
    let growing = Claim::small(1, 960, 0);
    let staying = Claim::small(1, 0, 0);
    let later = |name, claim, state| goes_on_from(name, &to_64, claim, state);
    let thrice = [32, 64, 96].map(|end| Claim::small(1, end, 0));
    vec![
        later("c09_later_cycle_from_one_byte_more", growing, state(65, 6)),
        later("c09_later_cycle_from_one_byte_less", growing, state(63, 6)),
        later("c09_later_cycle_from_one_gas_more", growing, state(64, 7)),
        later("c09_later_cycle_from_one_gas_less", growing, state(64, 5)),
        later("c09_later_cycle_keeps_one_byte_more", staying, state(65, 6)),
        later("c09_later_cycle_keeps_one_gas_less", staying, state(64, 5)),
        later("c09_later_cycle_from_nothing", growing, state(0, 0)),
        later("c09_later_cycle_out_of_bounds_from_nothing", far(1), state(0, 0)),
        later("c09_later_cycle_keeps_a_high_bit_of_cost", staying, state(64, 6 + (1 << 31))),
        later("c09_later_cycle_keeps_a_high_bit_of_mem", staying, state(64 + (1 << 23), 6)),
        goes_on_from("c09_from_the_cycle_before_last", &thrice[..2], thrice[2], state(32, 3)),
        goes_on_from("c09_from_the_first_of_three_cycles", &thrice, growing, state(32, 3)),
    ]
}

fn other_contexts() -> Vec<Vector> {
    let caller = Claim::small(1, 64, 0);
    let called = Claim::small(2, 704, 0);
    let back = Claim::small(1, 960, 0);
    let alike = Claim::small(0x0100_0001, 960, 0);
    let neighbour = Claim::small(0x0100_0002, 992, 0);
    let largest = Claim::small(u32::MAX, 960, 0);
    let one = [caller];
    let call = [caller, called];
    let forgotten = many_contexts().then(&back, state(0, 0));
    let deep = [caller, called, Claim::small(3, 96, 0), Claim::small(2, 736, 0)];
    vec![
        goes_on_from("c09_after_a_call_from_the_called_context", &call, back, state(704, 66)),
        goes_on_from("c09_after_a_call_from_nothing", &call, back, state(0, 0)),
        goes_on_from("c09_after_a_call_mem_of_the_called_context", &call, back, state(704, 6)),
        goes_on_from("c09_after_a_call_cost_of_the_called_context", &call, back, state(64, 66)),
        goes_on_from("c09_after_two_calls_from_the_inner_context", &deep, back, state(96, 9)),
        goes_on_from("c09_called_context_from_the_caller", &one, called, state(64, 6)),
        goes_on_from("c09_context_alike_in_its_low_bytes", &one, alike, state(64, 6)),
        goes_on_from("c09_context_alike_in_its_high_bytes", &[alike], neighbour, state(960, 91)),
        goes_on_from("c09_largest_context_from_context_1", &one, largest, state(64, 6)),
        forgotten.breaks("c09_context_back_after_189_others_from_nothing", LONGEST - 3, 9),
    ]
}

fn after_out_of_bounds() -> Vec<Vector> {
    let claims = [Claim::small(1, 64, 0), far(1)];
    let back = Claim::small(1, 960, 0);
    let went_on = |name, claims: &[Claim], state| goes_on_from(name, claims, back, state);
    let left = state_after(&beyond().rows[SECOND..]);
    let from_context_1 = kept().then(&far(2), left);
    vec![
        went_on("c09_after_out_of_bounds_from_nothing", &claims, state(0, 0)),
        went_on("c09_after_out_of_bounds_from_the_largest", &claims, state(0xff_ffff, 6)),
        went_on("c09_after_first_out_of_bounds_from_32_bytes", &[far(1)], state(32, 3)),
        went_on("c09_after_another_out_of_bounds", &[claims[0], far(2)], state(0, 0)),
        from_context_1.breaks("c09_out_of_bounds_from_another_context", 7, 9),
    ]
}

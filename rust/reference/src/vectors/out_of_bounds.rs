//! Vectors for 24 and 25: an instruction out of bounds changes nothing, leaves the other cells 0 and shows an end to be
//! out of bounds.

use super::Vector;
use super::carried::STAYING;
use super::scenes::{LONGEST, SECOND, beyond, far_end, lone_beyond, longest_beyond, past_bound};
use crate::cycle::BOUND;
use crate::draft::Draft;
use crate::row::Column::*;
use crate::row::{Column, Row};
use crate::sum::ACC1;
use crate::wide::Wide;

/// In `lone_beyond`, where the last row stands.
const LONE_END: usize = 17;

pub fn vectors() -> Vec<Vector> {
    [something_changes(), unused_cells(), excess_off(), excess_of_the_other_end(), nothing_out_of_bounds()].concat()
}

fn something_changes() -> Vec<Vector> {
    let Row { mem, cost, .. } = beyond().rows[SECOND];
    let wrong = |name, column, number: u32| beyond().set_all(2, column, number).breaks(name, SECOND, 24);
    let charged = beyond().set_all(2, COSTN, cost + 1).set_all(2, GAS, 1u8);
    vec![
        wrong("c24_memn_one_more", MEMN, mem + 1),
        wrong("c24_memn_0", MEMN, 0),
        wrong("c24_memn_largest", MEMN, 0xff_ffff),
        wrong("c24_costn_one_more", COSTN, cost + 1),
        wrong("c24_costn_0", COSTN, 0),
        wrong("c24_gas_1", GAS, 1),
        wrong("c24_gas_high_bit", GAS, 1 << 31),
        charged.breaks("c24_one_gas_charged", SECOND, 24),
    ]
}

/// Cells that stay within a cycle are set in all of it, the others in one row at a time.
fn unused_cells() -> Vec<Vector> {
    let from_comp = Column::ALL.iter().filter(|column| **column >= COMP);
    let unused = [&BYTE2, &ACC2].into_iter().chain(from_comp);
    let mut vectors = Vec::new();
    for &column in unused {
        let cell = column.name();
        if STAYING.contains(&column) {
            let one = beyond().set_all(2, column, 1u8);
            let high = beyond().set_all(2, column, column.highest_bit());
            vectors.push(one.breaks(format!("c24_{cell}_1"), SECOND, 24));
            vectors.push(high.breaks(format!("c24_{cell}_high_bit"), SECOND, 24));
            continue;
        }
        for (ct, value) in [(0, 1u8.into()), (8, column.highest_bit()), (16, column.largest())] {
            let row = SECOND + ct;
            let name = format!("c24_{cell}_at_ct_{ct}");
            vectors.push(beyond().set(row, column, value).breaks(name, row, 24));
        }
    }
    vectors
}

/// A first instruction out of bounds whose ACC1 comes to `total`.
fn showing(name: &str, end1: Wide, end2: Wide, total: Wide) -> Vector {
    shows(name, lone_beyond(end1, end2), total)
}

fn shows(name: &str, draft: Draft, total: Wide) -> Vector {
    draft.sum(1, ACC1, total).breaks(format!("c25_{name}"), LONE_END, 25)
}

fn excess_off() -> Vec<Vector> {
    let far = far_end();
    let excess = far.wrapping_sub(BOUND);
    let one = Wide::from(1u8);
    let top = Wide::power_of_two(128);
    let zero = Wide::ZERO;
    vec![
        showing("excess_one_more", far, zero, excess.wrapping_add(one)),
        showing("excess_one_less", far, zero, excess.wrapping_sub(one)),
        showing("excess_without_its_top_bit", far, zero, excess.wrapping_sub(Wide::power_of_two(132))),
        showing("excess_with_a_higher_top_byte", far, zero, excess.wrapping_add(top)),
        showing("end1_itself", far, zero, far),
        showing("excess_0", far, zero, zero),
        showing("excess_1_at_the_bound", BOUND, zero, one),
        showing("excess_0_after_the_bound", past_bound(1), zero, zero),
        showing("excess_of_end2_one_more", zero, far, excess.wrapping_add(one)),
        showing("excess_of_end2_one_less", zero, far, excess.wrapping_sub(one)),
        showing("end2_itself", zero, far, far),
        showing("excess_of_end2_1_at_the_bound", zero, BOUND, one),
        longest_beyond(13).sum(33, ACC1, 0u8).breaks("c25_in_the_last_of_574_rows", LONGEST - 1, 25),
    ]
}

/// END1 is taken if it is out of bounds and END2 only if END1 is not.
fn excess_of_the_other_end() -> Vec<Vector> {
    let [five, nine] = [5u32, 9].map(Wide::from);
    let both = lone_beyond(past_bound(5), past_bound(9));
    let greater_first = lone_beyond(past_bound(9), past_bound(5));
    let at_bound = lone_beyond(BOUND, past_bound(1));
    let second_only = || lone_beyond(five, past_bound(9));
    vec![
        shows("both_out_taken_from_end2", both, nine),
        shows("both_out_taken_from_the_lesser_end2", greater_first, five),
        shows("end1_at_the_bound_taken_from_end2", at_bound, 1u8.into()),
        shows("taken_from_end1_in_bounds_wrapped", second_only(), five.wrapping_sub(BOUND)),
        shows("taken_from_end1_in_bounds_itself", second_only(), five),
        shows("taken_from_end1_in_bounds_0", second_only(), Wide::ZERO),
    ]
}

/// OOOB is 1 although both ends are in bounds: no sum is the excess.
fn nothing_out_of_bounds() -> Vec<Vector> {
    let within = |end1: u32, end2: u32| {
        let draft = lone_beyond(BOUND, Wide::ZERO);
        draft.set_all(1, END1, end1).set_all(1, END2, end2)
    };
    let wrapped = |end: u32| Wide::from(end).wrapping_sub(BOUND);
    vec![
        shows("both_in_bounds_excess_0", within(5, 9), Wide::ZERO),
        shows("both_in_bounds_wrapped_end2", within(5, 9), wrapped(9)),
        shows("both_in_bounds_wrapped_end1", within(5, 9), wrapped(5)),
        shows("both_in_bounds_end2_itself", within(5, 9), 9u8.into()),
        shows("both_in_bounds_wrapped_at_24_bits", within(0xff_ffff, 9), 9u8.into()),
        shows("both_just_below_the_bound", within(0xff_ffff, 0xff_ffff), Wide::MAX),
        shows("nothing_touched", within(0, 0), wrapped(0)),
    ]
}

//! Vectors for 18 to 20: sums that hold but are not the ends, or not the differences that show the choices right. All
//! break in the last row of a cycle and nowhere before it.

use super::Vector;
use super::scenes::{
    LONGEST, SECOND_END, SINGLE_END, grown, grown_by_end2, kept, longest_in_bounds, past_bound, single,
};
use crate::claim::Claim;
use crate::draft::Draft;
use crate::price::Price;
use crate::row::Column::*;
use crate::sum::{self, Sum};
use crate::wide::Wide;

pub fn vectors() -> Vec<Vector> {
    [
        sums_off(),
        sums_off_in_the_longest(),
        ends_out_of_bounds(),
        choice_of_the_lesser_end(),
        growth_that_is_none(),
        growth_that_is_free(),
    ]
    .concat()
}

/// Each sum one more and one less than it should be, and wrong in its highest bit alone.
fn sums_off() -> Vec<Vector> {
    let scenes = [("grown", grown()), ("grown_by_end2", grown_by_end2()), ("kept", kept())];
    let sums: [(u8, Sum); 4] = [(18, sum::ACC1), (18, sum::ACC2), (19, sum::DACC), (20, sum::EACC)];
    let mut vectors = Vec::new();
    for (scene, draft) in scenes {
        for (constraint, sum) in sums {
            let right = draft.rows[SECOND_END].get(sum.acc);
            let wrong = [
                ("one_more", right.wrapping_add(1u8.into())),
                ("one_less", right.wrapping_sub(1u8.into())),
                ("high_bit_more", right.wrapping_add((1u32 << 23).into())),
            ];
            for (what, total) in wrong {
                let name = format!("c{constraint}_{}_{what}_{scene}", sum.acc.name());
                let draft = draft.clone().sum(2, sum, total);
                vectors.push(draft.breaks(name, SECOND_END, constraint));
            }
        }
    }
    vectors
}

fn sums_off_in_the_longest() -> Vec<Vector> {
    let last = LONGEST - 1;
    let wrong = [(18, sum::ACC2), (19, sum::DACC), (20, sum::EACC)];
    let off = |(constraint, sum): (u8, Sum)| {
        let name = format!("c{constraint}_{}_in_the_last_of_574_rows", sum.acc.name());
        longest_in_bounds().sum(191, sum, 0u8).breaks(name, last, constraint)
    };
    wrong.map(off).to_vec()
}

/// The end that is not chosen is out of bounds, so three bytes cannot sum up to it.
fn ends_out_of_bounds() -> Vec<Vector> {
    let mut vectors = Vec::new();
    for exponent in [24, 32, 64, 127, 128, 135] {
        let over = Wide::power_of_two(exponent).wrapping_add(0x06_5432u32.into());
        let end1 = grown_by_end2().set_all(2, END1, over);
        let end2 = grown().set_all(2, END2, over);
        let name = |end| format!("c18_{end}_over_2_to_{exponent}_in_3_rows");
        vectors.push(end1.breaks(name("end1"), SECOND_END, 18));
        vectors.push(end2.breaks(name("end2"), SECOND_END, 18));
    }
    let bound = single(64, 0).set_all(1, END2, past_bound(0));
    vectors.push(bound.breaks("c18_end2_at_the_bound_in_3_rows", SINGLE_END, 18));
    vectors
}

/// A difference below 0: neither 0 nor the difference modulo 256^3 stands for it.
fn below_zero(name: &str, draft: Draft, sum: Sum, wrapped: u32, constraint: u8) -> [Vector; 2] {
    let stamp = draft.rows.last().expect("the draft has rows").stamp;
    let row = draft.rows.len() - 1;
    [("0", 0), ("wrapped", wrapped)].map(|(what, total)| {
        let name = format!("c{constraint}_{name}_{}_{what}", sum.acc.name());
        draft.clone().sum(stamp, sum, total).breaks(name, row, constraint)
    })
}

/// COMP chooses an end that is less than the other, or calls equal ends unequal; all else follows from the choice.
fn choice_of_the_lesser_end() -> Vec<Vector> {
    let end1_less = single(64, 0).set_all(1, END2, 65u8).sum(1, sum::ACC2, 65u8);
    let end2_less = single(0, 64).set_all(1, END1, 65u8).sum(1, sum::ACC1, 65u8);
    let equal = single(64, 64).set_all(1, COMP, 0u8);
    let nothing = single(0, 0).set_all(1, COMP, 0u8);
    [
        below_zero("comp_1_with_end1_less", end1_less, sum::DACC, 0xff_ffff, 19),
        below_zero("comp_0_with_end2_less", end2_less, sum::DACC, 0xff_fffe, 19),
        below_zero("equal_ends_with_comp_0", equal, sum::DACC, 0xff_ffff, 19),
        below_zero("nothing_touched_with_comp_0", nothing, sum::DACC, 0xff_ffff, 19),
    ]
    .concat()
}

/// FLAG is 1 although the end is not past what was reached.
fn growth_that_is_none() -> Vec<Vector> {
    let after_64 = |end| {
        let draft = Draft::new(1, &[Claim::small(1, 64, 0), Claim::small(1, end, 0)]);
        draft.set_all(2, FLAG, 1u8).pay(2, &Price::of_end(end))
    };
    let nothing = single(0, 0).set_all(1, FLAG, 1u8);
    let nothing = nothing.pay(1, &Price::of_words(0, 0));
    [
        below_zero("flag_1_at_the_same_end", after_64(64), sum::EACC, 0xff_ffff, 20),
        below_zero("flag_1_at_an_end_before", after_64(63), sum::EACC, 0xff_fffe, 20),
        below_zero("flag_1_with_nothing_touched", nothing, sum::EACC, 0xff_ffff, 20),
    ]
    .concat()
}

/// FLAG is 0 although the end is past what was reached, so nothing is paid.
fn growth_that_is_free() -> Vec<Vector> {
    let reaching = |draft: Draft, instruction, end: u32| {
        draft.set_all(instruction, END1, end).set_all(instruction, ENDMAX, end).sum(instruction, sum::ACC1, end).sum(
            instruction,
            sum::DACC,
            end,
        )
    };
    let from_64 = Draft::new(1, &[Claim::small(1, 64, 0), Claim::small(1, 64, 0)]);
    let one_byte = reaching(from_64.clone(), 2, 65);
    let all = reaching(from_64, 2, 0xff_ffff);
    let first_byte = reaching(single(0, 0), 1, 1);
    [
        below_zero("flag_0_one_byte_further", one_byte, sum::EACC, 0xff_ffff, 20),
        below_zero("flag_0_as_far_as_it_goes", all, sum::EACC, 0x00_0041, 20),
        below_zero("flag_0_at_the_first_byte", first_byte, sum::EACC, 0xff_ffff, 20),
    ]
    .concat()
}

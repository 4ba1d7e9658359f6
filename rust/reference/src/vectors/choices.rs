//! Vectors for 15 to 17: which end counts, whether memory grows up to it, and what is paid. All break at the start of a
//! cycle and are otherwise as coherent as they can be.

use super::Vector;
use super::scenes::{SECOND, Scene, grown, grown_by_end2, kept, single};
use crate::claim::Claim;
use crate::draft::Draft;
use crate::price::Price;
use crate::row::Column::*;
use crate::row::Row;
use crate::sum;
use crate::wide::Wide;

pub fn vectors() -> Vec<Vector> {
    [
        choices_are_bits(),
        endmax_is_the_chosen_end(),
        ends_cut_to_endmax(),
        staying_changes_nothing(),
        growing_reaches_endmax(),
        growing_pays(),
        gas_is_the_difference(),
    ]
    .concat()
}

/// The first row of the second instruction.
fn second(draft: &Draft) -> Row {
    draft.rows[SECOND]
}

fn choices_are_bits() -> Vec<Vector> {
    let scenes: [Scene; 3] = [("grown", grown), ("grown_by_end2", grown_by_end2), ("kept", kept)];
    let mut vectors = Vec::new();
    for (scene, draft) in scenes {
        for column in [COMP, FLAG] {
            for value in [2u8, 255] {
                let name = format!("c15_{}_{value}_{scene}", column.name());
                let draft = draft().set_all(2, column, value);
                vectors.push(draft.breaks(name, SECOND, 15));
            }
        }
    }
    let unsummed = [Q1ACC, Q2ACC].map(|column| {
        let name = format!("c15_flag_2_with_wrong_{}", column.name());
        let draft = grown().set_all(2, FLAG, 2u8).set_all(2, column, 77u8);
        draft.breaks(name, SECOND, 15)
    });
    vectors.extend(unsummed);
    vectors
}

/// A cycle that reaches `end` as its ENDMAX and pays for it, whatever its ends are.
fn reaching(draft: Draft, end: u32) -> Draft {
    let Row { mem, .. } = second(&draft);
    draft.set_all(2, ENDMAX, end).sum(2, sum::EACC, end - mem - 1).pay(2, &Price::of_end(end))
}

fn endmax_is_the_chosen_end() -> Vec<Vector> {
    let one_more = kept().change(SECOND, ENDMAX, |end| end.wrapping_add(1u8.into()));
    vec![
        reaching(grown(), 0x06_5432).breaks("c16_endmax_end2_with_comp_1", SECOND, 16),
        reaching(grown_by_end2(), 0x06_5432).breaks("c16_endmax_end1_with_comp_0", SECOND, 16),
        reaching(grown(), 0x12_3457).breaks("c16_endmax_one_more_with_comp_1", SECOND, 16),
        reaching(grown_by_end2(), 0x12_3455).breaks("c16_endmax_one_less_with_comp_0", SECOND, 16),
        reaching(grown(), 0x92_3456).breaks("c16_endmax_high_bit_more", SECOND, 16),
        kept().set_all(2, ENDMAX, 0u8).breaks("c16_endmax_0_kept", SECOND, 16),
        one_more.breaks("c16_endmax_one_more_kept", SECOND, 16),
    ]
}

/// An end out of bounds in three rows, of which ENDMAX takes the low bytes.
fn ends_cut_to_endmax() -> Vec<Vector> {
    let mut vectors = Vec::new();
    for exponent in [24, 32, 64, 127, 128, 135] {
        let end = Wide::power_of_two(exponent).wrapping_add(0x12_3456u32.into());
        let end1 = grown().set_all(2, END1, end);
        let end2 = grown_by_end2().set_all(2, END2, end);
        vectors.push(end1.breaks(format!("c16_endmax_cuts_end1_over_2_to_{exponent}"), SECOND, 16));
        vectors.push(end2.breaks(format!("c16_endmax_cuts_end2_over_2_to_{exponent}"), SECOND, 16));
    }
    vectors
}

fn staying_changes_nothing() -> Vec<Vector> {
    let Row { mem, cost, endmax, .. } = second(&kept());
    let wrong = |name, column, number: u32| kept().set_all(2, column, number).breaks(name, SECOND, 17);
    let charged = kept().set_all(2, COSTN, cost + 1).set_all(2, GAS, 1u8);
    vec![
        wrong("c17_kept_memn_endmax", MEMN, endmax),
        wrong("c17_kept_memn_one_more", MEMN, mem + 1),
        wrong("c17_kept_memn_high_bit_more", MEMN, mem + (1 << 23)),
        wrong("c17_kept_memn_0", MEMN, 0),
        wrong("c17_kept_costn_one_more", COSTN, cost + 1),
        wrong("c17_kept_costn_one_less", COSTN, cost - 1),
        wrong("c17_kept_costn_high_bit_more", COSTN, cost + (1 << 31)),
        wrong("c17_kept_costn_0", COSTN, 0),
        wrong("c17_kept_gas_1", GAS, 1),
        wrong("c17_kept_gas_largest", GAS, u32::MAX),
        charged.breaks("c17_kept_one_gas_charged", SECOND, 17),
    ]
}

fn growing_reaches_endmax() -> Vec<Vector> {
    let Row { mem, endmax, .. } = second(&grown());
    let wrong = |name, number: u32| grown().set_all(2, MEMN, number).breaks(name, SECOND, 17);
    vec![
        wrong("c17_grown_memn_mem", mem),
        wrong("c17_grown_memn_one_more", endmax + 1),
        wrong("c17_grown_memn_one_less", endmax - 1),
        wrong("c17_grown_memn_high_bit_more", endmax + (1 << 23)),
    ]
}

/// COSTN is not the price of the words, and GAS goes along with it.
fn growing_pays() -> Vec<Vector> {
    let Row { cost, costn, q1, q2, .. } = second(&grown());
    let pays = |name, costn: u32| {
        let draft = grown().set_all(2, COSTN, costn);
        draft.set_all(2, GAS, costn - cost).breaks(name, SECOND, 17)
    };
    let wrapping = Price { q2: u32::MAX, ..Price::of_end(1) };
    vec![
        pays("c17_grown_costn_one_more", costn + 1),
        pays("c17_grown_costn_one_less", costn - 1),
        pays("c17_grown_costn_high_bit_more", costn + (1 << 31)),
        pays("c17_grown_costn_without_the_first_word", 3 * q1 + q2),
        pays("c17_grown_costn_with_factor_200", 200 * (1 + q1) + q2),
        pays("c17_grown_costn_of_words_alone", 3 * (1 + q1)),
        pays("c17_grown_costn_of_the_square_alone", q2),
        single(1, 0).pay(1, &wrapping).breaks("c17_costn_wraps_at_32_bits", 1, 17),
    ]
}

fn gas_is_the_difference() -> Vec<Vector> {
    let Row { costn, gas, .. } = second(&grown());
    let gives = |name, gas: u32| grown().set_all(2, GAS, gas).breaks(name, SECOND, 17);
    // The second instruction pays for one word only, which is less than its context has paid before it.
    let cheaper = Draft::new(1, &[Claim::small(1, 2_571, 0), Claim::small(1, 0x12_3456, 0)]);
    let cheaper = cheaper.pay(2, &Price::of_words(0, 0));
    vec![
        gives("c17_grown_gas_one_more", gas + 1),
        gives("c17_grown_gas_one_less", gas - 1),
        gives("c17_grown_gas_0", 0),
        gives("c17_grown_gas_for_all", costn),
        gives("c17_grown_gas_high_bit_more", gas + (1 << 31)),
        cheaper.breaks("c17_cost_and_gas_wrap_at_32_bits", SECOND, 17),
    ]
}

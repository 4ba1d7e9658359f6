//! Vectors for 21 to 23: the division of the end into words and of their square, and the cells that are 0 where nothing
//! is divided.

use super::Vector;
use super::scenes::{SECOND, SINGLE_END, grown, kept, single};
use crate::draft::Draft;
use crate::price::Price;
use crate::row::Column::{self, *};
use crate::sum;

/// 23 words, the last of which has 11 bytes.
const END: u32 = 715;
/// The largest end in bounds; its Q2 has four bytes.
const LARGEST_END: u32 = 0xff_ffff;

pub fn vectors() -> Vec<Vector> {
    [words_wrong(), rests_wrong(), squares_wrong(), square_cells_wrong(), large_squares_wrong(), cells_of_no_price()]
        .concat()
}

/// A first instruction up to `end` that pays another price than that of its end.
fn paying(name: &str, end: u32, price: Price, constraint: u8) -> Vector {
    let draft = single(end, 0).pay(1, &price);
    draft.breaks(format!("c{constraint}_{name}"), SINGLE_END, constraint)
}

/// The price is right for its count of words, but the count is not that of the end.
fn words_wrong() -> Vec<Vector> {
    let Price { q1, rest, .. } = Price::of_end(END);
    let off = |total| single(END, 0).sum(1, sum::Q1ACC, total);
    vec![
        paying("words_rounded_down", END, Price::of_words(q1 - 1, rest), 21),
        paying("one_word_too_many", END, Price::of_words(q1 + 1, rest), 21),
        paying("one_word_for_33_bytes", 33, Price::of_words(0, 0), 21),
        paying("one_word_for_everything", LARGEST_END, Price::of_words(0, 30), 21),
        paying("32_times_q1_wraps_at_24_bits", END, Price::of_words(q1 + (1 << 19), rest), 21),
        off(q1 + 1).breaks("c21_q1acc_one_more", SINGLE_END, 21),
        off(q1 - 1).breaks("c21_q1acc_one_less", SINGLE_END, 21),
        off(q1 + (1 << 23)).breaks("c21_q1acc_high_bit_more", SINGLE_END, 21),
    ]
}

/// The rest is not the end's, or the row before does not show it to be below 32.
fn rests_wrong() -> Vec<Vector> {
    let Price { q1, rest, .. } = Price::of_end(END);
    let shown = |aux1: u8| single(END, 0).set(SINGLE_END - 1, AUX1, aux1);
    vec![
        paying("rest_one_more", END, Price::of_words(q1, rest + 1), 21),
        paying("rest_one_less", END, Price::of_words(q1, rest - 1), 21),
        paying("rest_over_31_wraps_at_a_byte", END, Price::of_words(q1 - 1, rest + 32), 21),
        paying("rest_below_0_wraps_at_a_byte", 64, Price::of_words(2, 255), 21),
        shown(rest + 225).breaks("c21_aux1_before_one_more", SINGLE_END, 21),
        shown(rest + 223).breaks("c21_aux1_before_one_less", SINGLE_END, 21),
        shown(rest).breaks("c21_aux1_before_without_224", SINGLE_END, 21),
        shown(0).breaks("c21_aux1_before_0", SINGLE_END, 21),
        single(END, 0).set(SINGLE_END, AUX1, rest + 1).breaks("c21_aux1_one_more", SINGLE_END, 21),
    ]
}

/// The parts of the square are not its parts, and the cost goes along with them.
fn squares_wrong() -> Vec<Vector> {
    let right = Price::of_end(END);
    let odd = Price::of_words(16, 0);
    let with = |q2, e, low| Price { q2, e, low, ..right };
    vec![
        paying("q2_one_more", END, with(2, 0, 17), 22),
        paying("q2_one_less", END, with(0, 0, 17), 22),
        paying("e_2_makes_it_cheaper", END, with(0, 2, 17), 22),
        paying("e_1_for_0", END, with(1, 1, 17), 22),
        paying("e_0_for_1", 513, Price { e: 0, ..odd }, 22),
        paying("e_255", END, with(1, 255, 17), 22),
        paying("low_byte_one_more", END, with(1, 0, 18), 22),
        paying("low_byte_one_less", END, with(1, 0, 16), 22),
        paying("low_byte_0", END, with(1, 0, 0), 22),
        paying("square_of_one_word_less", END, Price { q1: right.q1, ..Price::of_words(21, right.rest) }, 22),
    ]
}

/// Q2 is right, but the cells that show its bytes are not.
fn square_cells_wrong() -> Vec<Vector> {
    let shown = |end, total: u32| single(end, 0).sum(1, sum::Q2ACC, total);
    let top = |end, byte: u8| single(end, 0).set(SINGLE_END - 1, AUX2, byte);
    vec![
        shown(END, 2).breaks("c22_q2acc_one_more", SINGLE_END, 22),
        shown(END, 0).breaks("c22_q2acc_one_less", SINGLE_END, 22),
        shown(END, 1 + (1 << 23)).breaks("c22_q2acc_high_bit_more", SINGLE_END, 22),
        shown(LARGEST_END, 1).breaks("c22_q2acc_one_more_under_its_top_byte", SINGLE_END, 22),
        top(END, 1).breaks("c22_top_byte_1_for_0", SINGLE_END, 22),
        top(END, 255).breaks("c22_top_byte_255_for_0", SINGLE_END, 22),
        top(LARGEST_END, 0).breaks("c22_top_byte_0_for_32", SINGLE_END, 22),
        top(LARGEST_END, 31).breaks("c22_top_byte_31_for_32", SINGLE_END, 22),
    ]
}

/// Q2 that only a sum cut to 32 bits would let pass, and Q2 as large as its cell and COSTN allow.
fn large_squares_wrong() -> Vec<Vector> {
    let right = Price::of_end(END);
    let words = 1 + right.q1;
    let with = |q2| Price { q2, ..right };
    let cut = Price { q2: 0, ..Price::of_end(LARGEST_END) };
    let wraps = 1 << 23;
    vec![
        paying("512_times_q2_wraps_once_at_32_bits", END, with(right.q2 + wraps), 22),
        paying("512_times_q2_wraps_often_at_32_bits", END, with(right.q2 + 511 * wraps), 22),
        paying("q2_as_large_as_costn_allows", END, with(u32::MAX - 3 * words), 22),
        paying("square_cut_to_32_bits", LARGEST_END, cut, 22),
    ]
}

fn cells_of_no_price() -> Vec<Vector> {
    let divided = [Q1, Q1BYTE, Q1ACC, Q2, Q2BYTE, Q2ACC, AUX1, AUX2];
    let mut vectors: Vec<Vector> = divided.into_iter().flat_map(not_zero_though_kept).collect();
    for value in [1u8, 224, 255] {
        let draft = grown().set(SECOND, AUX1, value);
        vectors.push(draft.breaks(format!("c23_aux1_{value}_at_ct_0_grown"), SECOND, 23));
    }
    vectors
}

/// Q1 and Q2 stay within a cycle, so they are set in all of it; the others are set in one row at a time.
fn not_zero_though_kept(column: Column) -> Vec<Vector> {
    let cell = column.name();
    if [Q1, Q2].contains(&column) {
        let set = |what: &str, value| {
            let draft: Draft = kept().set_all(2, column, value);
            draft.breaks(format!("c23_{cell}_{what}_kept"), SECOND, 23)
        };
        return vec![set("1", 1u8.into()), set("largest", column.largest())];
    }
    let at = |ct: usize| {
        let row = SECOND + ct;
        let one = kept().set(row, column, 1u8);
        let high = kept().set(row, column, column.highest_bit());
        [
            one.breaks(format!("c23_{cell}_1_at_ct_{ct}_kept"), row, 23),
            high.breaks(format!("c23_{cell}_high_bit_at_ct_{ct}_kept"), row, 23),
        ]
    };
    (0..3).flat_map(at).collect()
}

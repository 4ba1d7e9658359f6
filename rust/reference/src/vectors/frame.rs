//! Vectors for 1 to 6 and 26: how rows make up empty rows and cycles.

use super::Vector;
use super::scenes::{LONGEST, TOUR, far_end, grown, lone_beyond, longest_beyond, single, tour};
use crate::draft::Draft;
use crate::row::Column::{self, CN, CT, OOOB, STAMP};
use crate::row::Row;
use crate::wide::Wide;

pub fn vectors() -> Vec<Vector> {
    [
        ooob_is_a_bit(),
        row_0_is_empty(),
        first_stamp_is_1(),
        stamps_stay_in_a_cycle(),
        stamps_count_cycles(),
        counters(),
        ooob_stays(),
        empty_rows_are_zero(),
        cut_cycles(),
    ]
    .concat()
}

fn ooob_is_a_bit() -> Vec<Vector> {
    let values = [2u8, 255];
    let places = TOUR.iter().flat_map(|place| values.map(|value| (place, value)));
    places
        .map(|(&(place, row), value)| {
            let name = format!("c01_ooob_{value}_at_{place}");
            tour().set(row, OOOB, value).breaks(name, row, 1)
        })
        .collect()
}

fn row_0_is_empty() -> Vec<Vector> {
    vec![
        grown().keep(1..7).breaks("c02_in_bounds_from_row_0", 0, 2),
        lone_beyond(far_end(), Wide::ZERO).keep(1..18).breaks("c02_out_of_bounds_from_row_0", 0, 2),
        grown().keep(4..7).breaks("c02_second_cycle_from_row_0", 0, 2),
        tour().set(0, STAMP, 1u8).breaks("c02_stamp_1_in_row_0", 0, 2),
        tour().set(0, STAMP, STAMP.largest()).breaks("c02_stamp_largest_in_row_0", 0, 2),
    ]
}

fn first_stamp_is_1() -> Vec<Vector> {
    let two = single(64, 0).set_all(1, STAMP, 2u8);
    let largest = single(64, 0).set_all(1, STAMP, STAMP.largest());
    let beyond = lone_beyond(far_end(), Wide::ZERO).set_all(1, STAMP, 2u8);
    vec![
        two.breaks("c03_first_stamp_2", 1, 3),
        largest.breaks("c03_first_stamp_largest", 1, 3),
        beyond.breaks("c03_first_stamp_2_out_of_bounds", 1, 3),
        tour().set(1, STAMP, 2u8).breaks("c03_stamp_2_in_second_empty_row", 1, 3),
    ]
}

fn stamps_stay_in_a_cycle() -> Vec<Vector> {
    let inside = TOUR.iter().filter(|(_, row)| tour().rows[*row].ct != 0);
    let mut vectors = Vec::new();
    for &(place, row) in inside {
        let stamp = tour().rows[row].stamp;
        let next = tour().set(row, STAMP, stamp + 1);
        vectors.push(next.breaks(format!("c03_next_stamp_at_{place}"), row, 3));
        let mut emptied = tour();
        emptied.rows[row] = Row::default();
        vectors.push(emptied.breaks(format!("c03_empty_row_at_{place}"), row, 3));
    }
    let mut short = tour();
    short.rows.drain(8..22);
    vectors.push(short.breaks("c03_out_of_bounds_of_3_rows", 8, 3));
    vectors
}

fn stamps_count_cycles() -> Vec<Vector> {
    let after = [("in_bounds", 5), ("out_of_bounds", 22)];
    let mut vectors = Vec::new();
    for (kind, row) in after {
        let last = tour().rows[row - 1];
        let more = Row { ct: last.ct + 1, ..last };
        let edits = [
            ("one_row_more", tour().insert(row, more)),
            ("empty_row", tour().insert(row, Row::default())),
            ("stamp_skips_one", tour().set_all(last.stamp + 1, STAMP, last.stamp + 2)),
            ("same_stamp_from_ct_0", tour().set_all(last.stamp + 1, STAMP, last.stamp)),
            ("stamp_largest", tour().set_all(last.stamp + 1, STAMP, STAMP.largest())),
            ("cycle_repeated", with_cycle_repeated(last.stamp)),
        ];
        for (what, draft) in edits {
            vectors.push(draft.breaks(format!("c03_after_{kind}_{what}"), row, 3));
        }
    }
    let at_end = grown().insert(7, Row::default());
    vectors.push(at_end.breaks("c03_empty_row_at_the_end", 7, 3));
    vectors
}

fn with_cycle_repeated(instruction: u32) -> Draft {
    let mut draft = tour();
    let cycle = draft.cycle(instruction);
    let again = draft.rows[cycle.clone()].to_vec();
    draft.rows.splice(cycle.end..cycle.end, again);
    draft
}

fn counters() -> Vec<Vector> {
    let wrong: [(&str, usize, &[u8]); 13] = [
        ("first_empty_row", 0, &[1, 255]),
        ("second_empty_row", 1, &[1, 2]),
        ("new_stamp_after_empty_row", 2, &[1, 2, 255]),
        ("in_bounds_ct_1", 3, &[0, 2]),
        ("in_bounds_ct_2", 4, &[0, 1, 3, 16]),
        ("new_stamp_after_in_bounds", 5, &[1, 3]),
        ("out_of_bounds_ct_1", 6, &[0, 2]),
        ("out_of_bounds_ct_2", 7, &[1, 16]),
        ("out_of_bounds_ct_3", 8, &[0, 2]),
        ("out_of_bounds_ct_15", 20, &[14, 16]),
        ("out_of_bounds_ct_16", 21, &[0, 15, 17, 255]),
        ("new_stamp_after_out_of_bounds", 22, &[1, 17]),
        ("last_row", 24, &[0, 3]),
    ];
    let mut vectors = Vec::new();
    for (place, row, values) in wrong {
        for &value in values {
            let name = format!("c04_ct_{value}_at_{place}");
            vectors.push(tour().set(row, CT, value).breaks(name, row, 4));
        }
    }
    vectors
}

fn ooob_stays() -> Vec<Vector> {
    let starts = |row: usize| tour().rows[row].stamp != 0 && tour().rows[row].ct == 0;
    let places = TOUR.iter().filter(|(_, row)| !starts(*row));
    places
        .map(|&(place, row)| {
            let other = 1 - tour().rows[row].ooob;
            let name = format!("c05_ooob_{other}_at_{place}");
            tour().set(row, OOOB, other).breaks(name, row, 5)
        })
        .collect()
}

/// STAMP says that a row is empty, and CT and OOOB are settled by 4 and 5, so these three cannot be what 6 finds first.
fn empty_rows_are_zero() -> Vec<Vector> {
    let columns = Column::ALL.iter().filter(|column| ![STAMP, OOOB, CT].contains(column));
    let mut vectors = Vec::new();
    for &column in columns {
        let empty = || Draft::new(2, &[]);
        let cell = column.name();
        let one = empty().set(0, column, 1u8);
        vectors.push(one.breaks(format!("c06_{cell}_1"), 0, 6));
        let high = empty().set(1, column, column.highest_bit());
        vectors.push(high.breaks(format!("c06_{cell}_high_bit_in_second_row"), 1, 6));
    }
    let before_cycle = tour().set(1, CN, 1u8);
    vectors.push(before_cycle.breaks("c06_cn_before_a_cycle", 1, 6));
    vectors
}

fn cut_cycles() -> Vec<Vector> {
    let beyond = || lone_beyond(far_end(), Wide::ZERO);
    let cuts: [(&str, Draft, &[usize]); 4] = [
        ("in_bounds", single(64, 0), &[1, 2]),
        ("second_in_bounds", grown(), &[1, 2]),
        ("out_of_bounds", beyond(), &[1, 3, 16]),
        ("last_of_three", tour(), &[1, 2]),
    ];
    let mut vectors = Vec::new();
    for (kind, draft, lengths) in cuts {
        let start = draft.rows.iter().rposition(|row| row.ct == 0);
        let start = start.expect("a cycle starts somewhere");
        for &length in lengths {
            let end = start + length;
            let name = format!("c26_{kind}_cut_after_{length}_rows");
            vectors.push(draft.clone().keep(0..end).breaks(name, end - 1, 26));
        }
    }
    let longest = longest_beyond(14).keep(0..LONGEST);
    vectors.push(longest.breaks("c26_in_the_last_of_574_rows", LONGEST - 1, 26));
    vectors
}

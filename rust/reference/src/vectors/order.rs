//! Vectors that break several constraints at once: the lowest row counts, then the lowest number.

use super::Vector;
use super::carried::STAYING;
use super::scenes::{SECOND, SECOND_END, beyond, grown, kept};
use crate::draft::Draft;
use crate::row::Column::{self, *};
use crate::sum;

pub fn vectors() -> Vec<Vector> {
    [largest_in_empty_rows(), largest_in_bounds(), largest_out_of_bounds(), chains(), rows_before_numbers()].concat()
}

/// A constraint that is broken, and the columns to mend so that it is not.
type Step<'a> = (u8, &'a [Column]);

/// All cells of a row at their largest; then, step by step, some of them mended, so that the next constraint is the
/// first broken.
fn mended(place: &str, draft: Draft, row: usize, steps: &[Step]) -> Vec<Vector> {
    let right = draft.rows[row];
    let largest = |draft: Draft, &column: &Column| draft.set(row, column, column.largest());
    let mut wrong = Column::ALL.iter().fold(draft, largest);
    let mut vectors = Vec::new();
    for &(constraint, columns) in steps {
        let name = format!("order_largest_{place}_c{constraint:02}");
        vectors.push(wrong.clone().breaks(name, row, constraint));
        let mend = |draft: Draft, &column: &Column| draft.set(row, column, right.get(column));
        wrong = columns.iter().fold(wrong, mend);
    }
    vectors
}

/// What the frame of empty rows and cycles demands of any row but the first.
const FRAME: [Step; 3] = [(1, &[OOOB]), (3, &[STAMP]), (4, &[CT])];

fn largest_in_empty_rows() -> Vec<Vector> {
    let empty = || Draft::new(2, &[]);
    let first: [Step; 4] = [(1, &[OOOB]), (2, &[STAMP]), (4, &[CT]), (6, &[])];
    let second = [&FRAME[..], &[(6, &[])]].concat();
    let marked = Column::ALL.iter().filter(|column| ![STAMP, CT].contains(column));
    let marked = marked.fold(empty(), |draft, &column| draft.set(1, column, column.largest()));
    let marked = marked.set(1, OOOB, 1u8);
    let mut vectors = mended("first_empty_row", empty(), 0, &first);
    vectors.extend(mended("second_empty_row", empty(), 1, &second));
    vectors.push(marked.breaks("order_largest_second_empty_row_c05", 1, 5));
    vectors
}

fn largest_in_bounds() -> Vec<Vector> {
    let sums: [Step; 4] = [(10, &[BYTE1, ACC1]), (11, &[BYTE2, ACC2]), (12, &[DBYTE, DACC]), (13, &[EBYTE, EACC])];
    let divided = [Q1BYTE, Q1ACC, Q2BYTE, Q2ACC];
    // While FLAG is not 1, 14 demands nothing: it comes up only once 15 is mended.
    let start: [Step; 5] = [
        (15, &[COMP, FLAG]),
        (14, &divided),
        (16, &[END1, END2, ENDMAX]),
        (17, &[MEMN, COSTN, GAS, Q1, Q2]),
        (23, &[AUX1]),
    ];
    let inside = [&FRAME[..], &[(8, &STAYING)], &sums, &[(14, &divided)]].concat();
    let at_start = [&FRAME[..], &[(9, &[CN, MEM, COST])], &sums, &start].concat();
    let at_end = [&inside[..], &[(21, &[AUX1]), (22, &[AUX2])]].concat();
    [
        mended("in_bounds_ct_0", grown(), SECOND, &at_start),
        mended("in_bounds_ct_1", grown(), SECOND + 1, &inside),
        mended("in_bounds_ct_2", grown(), SECOND_END, &at_end),
    ]
    .concat()
}

fn largest_out_of_bounds() -> Vec<Vector> {
    let rest: [Step; 2] = [(10, &[BYTE1, ACC1]), (24, &[])];
    let at_start = [&FRAME[..], &[(9, &[CN, MEM, COST])], &rest].concat();
    let inside = [&FRAME[..], &[(8, &STAYING)], &rest].concat();
    [
        mended("out_of_bounds_ct_0", beyond(), SECOND, &at_start),
        mended("out_of_bounds_ct_8", beyond(), SECOND + 8, &inside),
        mended("out_of_bounds_ct_16", beyond(), SECOND + 16, &inside),
    ]
    .concat()
}

/// An edit that by itself breaks the constraint of this number, and no lower one, in a given row.
type Edit = (u8, fn(Draft) -> Draft);

/// All edits at once, then all but the first, and so on: each time the first of those left is what is found.
fn chain(place: &str, draft: fn() -> Draft, row: usize, edits: &[Edit]) -> Vec<Vector> {
    let from = |first: usize| {
        let constraint = edits[first].0;
        let wrong = edits[first..].iter().fold(draft(), |draft, (_, edit)| edit(draft));
        let name = format!("order_{place}_from_c{constraint}_on");
        wrong.breaks(name, row, constraint)
    };
    (0..edits.len()).map(from).collect()
}

fn chains() -> Vec<Vector> {
    let ends: [Edit; 3] = [
        (18, |draft| draft.sum(2, sum::ACC1, 77u8)),
        (19, |draft| draft.sum(2, sum::DACC, 77u8)),
        (20, |draft| draft.sum(2, sum::EACC, 77u8)),
    ];
    let divided: [Edit; 2] =
        [(21, |draft| draft.sum(2, sum::Q1ACC, 77u8)), (22, |draft| draft.sum(2, sum::Q2ACC, 77u8))];
    let unpriced: [Edit; 1] = [(23, |draft| draft.set(SECOND_END, AUX2, 77u8))];
    let beyond_edits: [Edit; 2] =
        [(24, |draft| draft.set(SECOND + 16, AUX2, 77u8)), (25, |draft| draft.sum(2, sum::ACC1, 77u8))];
    [
        chain("grown", grown, SECOND_END, &[&ends[..], &divided].concat()),
        chain("kept", kept, SECOND_END, &[&ends[..], &unpriced].concat()),
        chain("beyond", beyond, SECOND + 16, &beyond_edits),
    ]
    .concat()
}

fn rows_before_numbers() -> Vec<Vector> {
    let late_number = grown().sum(1, sum::DACC, 77u8).set(SECOND, OOOB, 2u8);
    let two_cycles = beyond().set(SECOND, AUX2, 1u8).set(SECOND + 1, CT, 9u8);
    let cut_and_unsummed = grown().keep(0..6).set(SECOND + 1, BYTE1, 77u8);
    let cut_and_unused = beyond().keep(0..8).set(7, AUX1, 77u8);
    let cut_after_break = grown().keep(0..6).set(SECOND, CN, 0u8);
    vec![
        late_number.breaks("order_row_3_c19_before_row_4_c01", 3, 19),
        two_cycles.breaks("order_row_4_c24_before_row_5_c04", SECOND, 24),
        cut_and_unsummed.breaks("order_cut_row_c10_before_c26", SECOND + 1, 10),
        cut_and_unused.breaks("order_cut_row_c24_before_c26", 7, 24),
        cut_after_break.breaks("order_row_4_c07_before_row_5_c26", SECOND, 7),
    ]
}

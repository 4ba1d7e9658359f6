//! Vectors by the length of the input: what is not whole rows, or more than `verify` reads; and inputs of one byte
//! repeated.

use super::Vector;
use super::scenes::{grown, tour};
use crate::check::Verdict;
use crate::program::MAX_TRACE_INPUT;
use crate::row::ROW_BYTES;

pub fn vectors() -> Vec<Vector> {
    let mut vectors = one_byte_repeated();
    vectors.extend(cut_inside_a_row());
    vectors
}

const NOT_WHOLE_ROWS: Verdict = Verdict::Refused { number: 9 };
const TOO_LONG: Verdict = Verdict::Refused { number: 10 };

fn one_byte_repeated() -> Vec<Vector> {
    let lengths = [
        (1, NOT_WHOLE_ROWS),
        (ROW_BYTES - 1, NOT_WHOLE_ROWS),
        (ROW_BYTES + 1, NOT_WHOLE_ROWS),
        (2 * ROW_BYTES - 1, NOT_WHOLE_ROWS),
        (MAX_TRACE_INPUT - 1, NOT_WHOLE_ROWS),
        (MAX_TRACE_INPUT + 1, TOO_LONG),
        (MAX_TRACE_INPUT + ROW_BYTES, TOO_LONG),
    ];
    let mut vectors = vec![vector("refused_empty_input".into(), Vec::new(), NOT_WHOLE_ROWS)];
    for (length, intended) in lengths {
        for (what, byte) in [("zeros", 0), ("ones", u8::MAX)] {
            let name = format!("refused_{length}_bytes_of_{what}");
            vectors.push(vector(name, vec![byte; length], intended));
        }
    }
    for length in [ROW_BYTES, 3 * ROW_BYTES, MAX_TRACE_INPUT] {
        let name = format!("c01_{length}_bytes_of_ones");
        let intended = Verdict::Broken { row: 0, constraint: 1 };
        vectors.push(vector(name, vec![u8::MAX; length], intended));
    }
    vectors
}

fn cut_inside_a_row() -> Vec<Vector> {
    let whole = grown().to_bytes();
    let cut = |kept: usize| vector(format!("refused_cut_to_{kept}_bytes"), whole[..kept].to_vec(), NOT_WHOLE_ROWS);
    let mut longer = tour().to_bytes();
    longer.push(0);
    vec![
        cut(whole.len() - 1),
        cut(whole.len() - ROW_BYTES + 1),
        cut(4 * ROW_BYTES + 57),
        vector("refused_one_byte_after_the_rows".into(), longer, NOT_WHOLE_ROWS),
    ]
}

fn vector(name: String, bytes: Vec<u8>, intended: Verdict) -> Vector {
    Vector { name, bytes, intended }
}

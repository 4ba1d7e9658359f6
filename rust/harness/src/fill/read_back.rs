//! The claims of a list read back from the trace that was filled from it.

use reference::{Claim, ROW_BYTES};

use crate::Outcome;
use crate::trace_calls::asked::Asked;
use crate::trace_calls::full_size::rows_of;

/// Of a longer trace, about so many instructions are asked for, since each call checks the whole trace.
const MOST_ASKED: usize = 300;

/// The instructions of a trace must have these claims, and nothing but empty rows may come before them.
pub fn read_back(trace: &[u8], claims: &[Claim]) -> Outcome<()> {
    let rows: Vec<usize> = claims.iter().map(rows_of).collect();
    let of_claims: usize = rows.iter().sum();
    let all = trace.len() / ROW_BYTES;
    let empty = all.checked_sub(of_claims).ok_or_else(|| format!("{all} rows, the claims have {of_claims}"))?;
    let mut asked = Asked::new(trace);
    let mut first = empty;
    for (place, (claim, &rows)) in claims.iter().zip(&rows).enumerate() {
        if place % (claims.len() / MOST_ASKED + 1) == 0 || place + 1 == claims.len() {
            asked.expect_instruction(place as u64 + 1, claim, first, rows)?;
        }
        first += rows;
    }
    asked.expect_walk(empty, rows)
}

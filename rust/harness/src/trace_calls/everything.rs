//! All that is worth asking of one trace, right or wrong.

use std::collections::BTreeSet;

use reference::row::first_rows;
use reference::{ROW_BYTES, Trace};

use crate::Outcome;
use crate::trace_calls::asked::Asked;
use crate::trace_calls::question::Question;

/// So many contexts of a trace are asked about.
const MOST_CONTEXTS: usize = 12;

/// Asks both everything; answers how many answers there were.
pub fn compare(bytes: &[u8]) -> Outcome<usize> {
    let mut asked = Asked::new(bytes);
    let instructions = asked.trace().map_or(3, |trace| trace.instructions());
    for k in (0..=instructions + 2).chain([u64::MAX]) {
        asked.ask(Question::Rows { k })?;
        asked.ask(Question::Claim { k })?;
    }
    let contexts: BTreeSet<u32> = first_rows(bytes).map(|row| row.cn).collect();
    for cn in contexts.into_iter().take(MOST_CONTEXTS).chain([0, 1, 77, u32::MAX]) {
        let needed = asked.trace().map_or(0, |trace| needed(&trace, cn));
        for limit in [0, needed.saturating_sub(1), needed, needed + 1, u64::MAX] {
            asked.ask(Question::LastState { cn, limit })?;
        }
    }
    let rows = (bytes.len() / ROW_BYTES) as u64;
    for next in (0..rows + 20).chain([u64::MAX]) {
        asked.ask(Question::Step { next })?;
    }
    match asked.trace() {
        Ok(_) => asked.expect_walk_of_all_rows(instructions)?,
        Err(_) => drop(asked.ask(Question::Open)?),
    }
    Ok(asked.answers())
}

/// How many cycles have to be looked at for the last state of a context.
pub fn needed(trace: &Trace, cn: u32) -> u64 {
    trace.last_state(cn, u64::MAX).map_or(0, |last| last.looked)
}

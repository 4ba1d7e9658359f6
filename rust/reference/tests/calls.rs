//! The calls over a trace put to other ways of saying what they answer: instructions laid end to end, and states kept
//! from the first row on.

use std::collections::BTreeMap;

use reference::row::first_rows;
use reference::trace::{LIMIT_TOO_LOW, NO_INSTRUCTION};
use reference::{Claim, LastState, MAX_ROWS, ROW_BYTES, State, Trace, Verdict, Walker, check, vectors};

/// Every vector that is accepted.
fn accepted() -> Vec<Vec<u8>> {
    let all = vectors::all().into_iter();
    all.filter(|vector| matches!(vector.intended, Verdict::Accepted { .. })).map(|vector| vector.bytes).collect()
}

#[test]
fn instructions_laid_end_to_end_are_the_trace_after_its_empty_rows() {
    for bytes in accepted() {
        let trace = Trace::accepted(&bytes).expect("the trace is accepted");
        let empty = bytes.iter().take_while(|&&byte| byte == 0).count() / ROW_BYTES * ROW_BYTES;
        let parts = (1..=trace.instructions()).map(|k| trace.rows(k).expect("instruction k is there"));
        let together: Vec<u8> = parts.flat_map(|part| bytes[part].to_vec()).collect();
        assert_eq!(together, bytes[empty..]);
        assert_eq!(trace.rows(trace.instructions() + 1), Err(NO_INSTRUCTION));
        assert_eq!(trace.walker().next, (empty / ROW_BYTES) as u64);
    }
}

#[test]
fn a_walk_gives_instruction_by_instruction() {
    for bytes in accepted() {
        let trace = Trace::accepted(&bytes).expect("the trace is accepted");
        let mut walker = trace.walker();
        for k in 1..=trace.instructions() {
            assert_eq!(walker.step(), trace.rows(k).ok());
        }
        assert_eq!(walker.step(), None);
        assert_eq!(walker, Walker { trace: &bytes, next: (bytes.len() / ROW_BYTES) as u64 });
    }
}

#[test]
fn claims_are_those_of_the_first_rows() {
    for bytes in accepted() {
        let trace = Trace::accepted(&bytes).expect("the trace is accepted");
        let claims = (1..=trace.instructions()).map(|k| trace.claim(k).expect("instruction k is there"));
        assert!(claims.eq(first_rows(&bytes).map(|row| Claim::of_row(&row))));
    }
}

#[test]
fn last_states_are_those_kept_from_the_first_row_on() {
    for bytes in accepted() {
        let trace = Trace::accepted(&bytes).expect("the trace is accepted");
        let all = trace.instructions();
        let mut kept = BTreeMap::from([(u32::MAX - 1, (State::default(), all))]);
        for (row, after) in first_rows(&bytes).zip((1..=all).rev()) {
            kept.insert(row.cn, (State { mem: row.memn, cost: row.costn }, after));
        }
        for (cn, (state, looked)) in kept {
            assert_eq!(trace.last_state(cn, looked), Ok(LastState { state, looked }), "context {cn}");
            if let Some(short) = looked.checked_sub(1) {
                assert_eq!(trace.last_state(cn, short), Err(LIMIT_TOO_LOW), "context {cn}");
            }
        }
    }
}

#[test]
fn a_trace_is_taken_in_if_and_only_if_the_checker_accepts_it() {
    let too_many = vec![0; (MAX_ROWS + 1) * ROW_BYTES];
    for bytes in vectors::all().into_iter().map(|vector| vector.bytes).chain([too_many]) {
        let number = match check(&bytes) {
            Verdict::Accepted { .. } => 0,
            Verdict::Broken { .. } => 11,
            Verdict::Refused { number } => number,
        };
        let (trace, walker) = (Trace::accepted(&bytes), Walker::open(&bytes));
        assert_eq!(trace.map_or_else(|refusal| refusal.number, |_| 0), number);
        assert_eq!(walker.map_or_else(|refusal| refusal.number, |_| 0), number);
    }
}

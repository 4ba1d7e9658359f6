//! The filler, the checker and the calls over a trace on document 01's example, on the kept vectors and on ends of every
//! width.

mod common;

use std::collections::BTreeSet;
use std::fs;
use std::path::{Path, PathBuf};

use common::{LIST, TRACE, trace_of};
use mxp::{Claim, Constraint, Counts, End, LastState, MAX_ROWS, ROW_BYTES, Refusal, State, Verdict};

/// The most bytes that `verify` takes; what it prints for longer ones is not the checker's answer.
const VERIFY_BYTES: usize = 65_436;

/// The kept traces that `verify` takes, each with the line that it prints for it.
fn vectors() -> Vec<(Vec<u8>, String)> {
    let folder = Path::new(env!("CARGO_MANIFEST_DIR")).join("../../data/verify");
    let read = |file: PathBuf| fs::read(&file).unwrap_or_else(|error| panic!("{}: {error}", file.display()));
    let lines = String::from_utf8(read(folder.join("expected.txt"))).expect("the lines are text");
    let told = lines.lines().map(|line| line.split_once('\t').expect("a name and a line"));
    let all = told.map(|(name, line)| (read(folder.join(format!("{name}.trace"))), line.to_owned()));
    all.filter(|(trace, _)| trace.len() <= VERIFY_BYTES).collect()
}

/// The line that `verify` prints.
fn printed(answer: Result<Verdict, Refusal>) -> String {
    match answer {
        Ok(Verdict::Accepted(Counts { instructions, out_of_bounds, empty_rows })) => {
            format!("accepted=1 instructions={instructions} oob={out_of_bounds} empty={empty_rows}")
        }
        Ok(Verdict::Broken { row, constraint }) => format!("accepted=0 row={row} constraint={}", constraint.number()),
        Err(refusal) => format!("refused={} line={}", refusal.number(), refusal.line().unwrap_or(0)),
    }
}

/// The end in a cell of a row.
fn cell(row: &[u8], at: usize) -> End {
    End::from_be_bytes(row[at..at + 17].try_into().expect("a cell of 17 bytes"))
}

#[test]
fn the_example_is_filled_as_the_reference_fills_it() {
    assert_eq!(trace_of(LIST, 1), TRACE);
}

#[test]
fn the_filler_writes_its_rows_and_nothing_behind_them() {
    for (empty_rows, spare) in [(1, 0), (1, 1), (1, ROW_BYTES), (3, 1_000)] {
        let length = TRACE.len() + (empty_rows - 1) * ROW_BYTES;
        let mut buffer = vec![0xa5; length + spare];
        let trace = mxp::fill(LIST, empty_rows, &mut buffer).expect("the buffer is long enough");
        assert_eq!(trace.len(), length);
        assert!(trace.ends_with(TRACE) && trace[..length - TRACE.len()].iter().all(|&byte| byte == 0));
        assert!(buffer[length..].iter().all(|&byte| byte == 0xa5), "{spare} bytes behind the rows");
    }
}

#[test]
fn the_checker_says_of_the_kept_traces_what_verify_prints() {
    let mut broken = BTreeSet::new();
    for (trace, line) in vectors() {
        let answer = mxp::check(&trace);
        if let Ok(Verdict::Broken { constraint, .. }) = answer {
            broken.insert(constraint);
        }
        assert_eq!(printed(answer), line);
    }
    assert!(broken.into_iter().eq((1..=Constraint::COUNT).filter_map(Constraint::new)));
}

#[test]
fn a_walk_gives_every_accepted_trace_cycle_by_cycle() {
    let mut longest = 0;
    for (trace, _) in vectors() {
        let Ok(Verdict::Accepted(counts)) = mxp::check(&trace) else { continue };
        let mut cycles = mxp::cycles(&trace).expect("the trace is accepted");
        let walked: Vec<&[u8]> = cycles.by_ref().collect();
        assert_eq!((cycles.next(), cycles.next()), (None, None));
        assert_eq!(walked.concat(), trace[counts.empty_rows * ROW_BYTES..]);
        assert_eq!(walked.len(), counts.instructions);
        assert_eq!(walked.iter().filter(|cycle| cycle.len() == 17 * ROW_BYTES).count(), counts.out_of_bounds);
        longest = longest.max(walked.len());
    }
    assert!(longest > 100);
}

#[test]
fn rows_and_claims_are_those_of_the_cycles() {
    let claims: [(u32, u64, u64); 6] = [(1, 32, 0), (2, 1, 0), (1, 705, 0), (1, 0, 0), (2, 0, 64), (2, 1 << 24, 0)];
    let cycles = mxp::cycles(TRACE).expect("the trace is accepted");
    let mut seen = 0;
    for ((cycle, k), (context, end1, end2)) in cycles.zip(1..).zip(claims) {
        assert_eq!(mxp::rows(TRACE, k), Ok(cycle));
        assert_eq!((cell(cycle, 10), cell(cycle, 27)), (End::from(end1), End::from(end2)));
        let claim = Claim { context, end1: End::from(end1), end2: End::from(end2) };
        assert_eq!(mxp::claim(TRACE, k), Ok(claim));
        assert_eq!(claim.in_bounds(), k != 6);
        seen = k;
    }
    assert_eq!(seen, 6);
}

#[test]
fn a_claim_has_the_largest_context_and_end_in_either_place() {
    let (most, half) = ("f".repeat(32), "10000000000000000");
    let list = format!(
        "cn=ffffffff op=f1 at1={most} len1={most} at2={half} len2=5\n\
         cn=ffffffff op=f1 at1={half} len1=5 at2={most} len2={most}\n"
    );
    let trace = trace_of(list.as_bytes(), 1);
    let [first, second] = [1, 2].map(|k| mxp::claim(&trace, k).expect("the instruction is there"));
    assert_eq!((first.context, second.context), (u32::MAX, u32::MAX));
    assert_eq!((first.end1, first.end2), (second.end2, second.end1));
    assert_eq!(format!("{:x}", first.end1), format!("1{}e", &most[1..]));
    assert_eq!(u128::try_from(first.end2), Ok((1 << 64) + 5));
    assert!(!first.in_bounds() && !second.in_bounds());
}

#[test]
fn last_states_are_found_from_the_end() {
    let cases = [(1, 3, 705, 70), (2, 1, 64, 6), (3, 6, 0, 0), (u32::MAX, 6, 0, 0)];
    for (context, looked, mem, cost) in cases {
        let last = LastState { state: State { mem, cost }, looked };
        for limit in [looked, looked + 1, usize::MAX] {
            assert_eq!(mxp::last_state(TRACE, context, limit), Ok(last), "context {context}, limit {limit}");
        }
    }
}

#[test]
fn a_trace_of_empty_rows_has_no_cycles() {
    for empty_rows in [1, 2, MAX_ROWS] {
        let trace = trace_of(b"", empty_rows);
        let counts = Counts { instructions: 0, out_of_bounds: 0, empty_rows };
        assert_eq!(mxp::check(&trace), Ok(Verdict::Accepted(counts)));
        assert_eq!(mxp::cycles(&trace).expect("the trace is accepted").next(), None);
        let none = LastState { state: State::default(), looked: 0 };
        assert_eq!(mxp::last_state(&trace, 1, 0), Ok(none));
    }
}

//! Every refusal reached through the safe calls, in its order before the others, and what is lent left as it was.

mod common;

use common::{LIST, TRACE, trace_of};
use mxp::Refusal::{self, *};
use mxp::{Constraint, MAX_LIST_BYTES, MAX_ROWS, ROW_BYTES, Verdict};

/// A line that is not refused.
const LINE: &[u8] = b"cn=1 op=59 at1=0 len1=0 at2=0 len2=0\n";

const PATTERN: u8 = 0xa5;

/// Asks for a list to be filled into so many patterned bytes, which must stay.
fn refused(list: &[u8], empty_rows: usize, bytes: usize) -> Refusal {
    let mut buffer = vec![PATTERN; bytes];
    let refusal = mxp::fill(list, empty_rows, &mut buffer).expect_err("the list is refused");
    assert!(buffer.iter().all(|&byte| byte == PATTERN), "{refusal}: the buffer was written to");
    refusal
}

/// What each of the five calls over a trace says of one: the checker, rows, claim, last state, cycles.
fn refusals_of(trace: &[u8]) -> [Option<Refusal>; 5] {
    [
        mxp::check(trace).err(),
        mxp::rows(trace, 1).err(),
        mxp::claim(trace, 1).err(),
        mxp::last_state(trace, 1, usize::MAX).err(),
        mxp::cycles(trace).err(),
    ]
}

#[test]
fn a_list_is_refused_for_its_length_first() {
    let newlines = vec![b'\n'; MAX_LIST_BYTES + 1];
    assert_eq!(refused(&newlines, 0, 0), ListTooLong);
    assert_eq!(refused(&newlines[1..], 0, 0), NoEmptyRow);
    assert_eq!(refused(&newlines[1..], 1, 0), NotOfForm { line: 1 });
}

#[test]
fn a_list_is_refused_by_its_first_bad_line() {
    let room = 9 * ROW_BYTES;
    let lines: [(&[u8], Refusal); 10] = [
        (b"\n", NotOfForm { line: 2 }),
        (b"\xff", NotOfForm { line: 2 }),
        (&LINE[..LINE.len() - 1], NotOfForm { line: 2 }),
        (b"cn=1 op=59 at1=0 len1=0 at2=0 len2=0 \n", NotOfForm { line: 2 }),
        (b"cn=100000000 op=59 at1=0 len1=0 at2=0 len2=0\n", NotOfForm { line: 2 }),
        (b"cn=0 op=00 at1=1 len1=0 at2=0 len2=0\n", CnZero { line: 2 }),
        (b"cn=1 op=00 at1=1 len1=0 at2=0 len2=0\n", OpcodeNotListed { line: 2 }),
        (b"cn=1 op=59 at1=1 len1=0 at2=0 len2=0\n", UnusedField { line: 2 }),
        (b"cn=1 op=59 at1=1 len1=0 at2=0 len2=0\n\n", UnusedField { line: 2 }),
        (b"cn=1 op=51 at1=ffffffffffffffffffffffffffffffff len1=1 at2=0 len2=0\n", UnusedField { line: 2 }),
    ];
    for (line, refusal) in lines {
        assert_eq!(refused(&[LINE, line].concat(), 1, room), refusal);
    }
    assert_eq!(refused(&[0xff; 37], MAX_ROWS + 1, 0), NotOfForm { line: 1 });
}

#[test]
fn a_list_is_refused_for_its_rows_last() {
    assert_eq!(refused(b"", MAX_ROWS + 1, 0), FillTooLong);
    assert_eq!(refused(b"", usize::MAX, ROW_BYTES), FillTooLong);
    assert_eq!(refused(LINE, MAX_ROWS - 2, 0), FillTooLong);
    assert_eq!(refused(LINE, MAX_ROWS - 3, 0), BufferShort);
    assert_eq!(refused(LIST, 1, TRACE.len() - 1), BufferShort);
}

#[test]
fn a_trace_of_a_wrong_length_is_refused_by_every_call() {
    let lengthened = [TRACE, &[0]].concat();
    let cut = &TRACE[..TRACE.len() - 1];
    for trace in [&[][..], &[0; ROW_BYTES - 1], &[0xff; ROW_BYTES + 1], cut, &lengthened] {
        assert_eq!(refusals_of(trace), [Some(TraceLength); 5], "{} bytes", trace.len());
    }
    let rows = vec![0; (MAX_ROWS + 1) * ROW_BYTES];
    assert_eq!(refusals_of(&rows), [Some(TraceTooLong); 5]);
    assert_eq!(refusals_of(&rows[1..]), [Some(TraceLength); 5]);
    assert_eq!(refusals_of(&rows[ROW_BYTES..]), [None, Some(NoInstruction), Some(NoInstruction), None, None]);
}

#[test]
fn a_trace_that_is_not_accepted_is_refused_by_every_call_but_the_checker() {
    let (in_a_cycle, ones) = (&TRACE[..2 * ROW_BYTES], [0xff; 40 * ROW_BYTES]);
    for (trace, row, number) in [(in_a_cycle, 1, 26), (&ones, 0, 1)] {
        let constraint = Constraint::new(number).expect("there is such a constraint");
        assert_eq!(mxp::check(trace), Ok(Verdict::Broken { row, constraint }));
        assert_eq!(
            refusals_of(trace),
            [None, Some(NotAccepted), Some(NotAccepted), Some(NotAccepted), Some(NotAccepted)]
        );
        assert_eq!((mxp::rows(trace, 0), mxp::claim(trace, 0)), (Err(NotAccepted), Err(NotAccepted)));
        assert_eq!(mxp::last_state(trace, 0, 0), Err(NotAccepted));
    }
}

#[test]
fn there_is_no_instruction_outside_the_trace() {
    for k in [0, 7, usize::MAX] {
        assert_eq!((mxp::rows(TRACE, k), mxp::claim(TRACE, k)), (Err(NoInstruction), Err(NoInstruction)), "k = {k}");
    }
}

#[test]
fn a_last_state_is_refused_for_its_context_before_its_limit() {
    assert_eq!(mxp::last_state(TRACE, 0, 0), Err(ContextZero));
    assert_eq!(mxp::last_state(TRACE, 2, 0), Err(LimitTooLow));
    assert_eq!(mxp::last_state(TRACE, 1, 2), Err(LimitTooLow));
    assert_eq!(mxp::last_state(TRACE, u32::MAX, 5), Err(LimitTooLow));
    assert_eq!(mxp::last_state(&trace_of(b"", 1), 0, 0), Err(ContextZero));
}

#[test]
fn each_refusal_says_something_of_its_own() {
    let line = 12;
    let all = [
        ListTooLong,
        NoEmptyRow,
        NotOfForm { line },
        CnZero { line },
        OpcodeNotListed { line },
        UnusedField { line },
        FillTooLong,
        BufferShort,
        TraceLength,
        TraceTooLong,
        NotAccepted,
        NoInstruction,
        ContextZero,
        LimitTooLow,
    ];
    let mut said = Vec::new();
    for (refusal, number) in all.into_iter().zip(1..) {
        assert_eq!(refusal.number(), number);
        let error: &dyn std::error::Error = &refusal;
        said.push(error.to_string());
        assert_eq!(said.last().is_some_and(|words| words.contains("line 12 ")), refusal.line() == Some(line));
    }
    said.sort();
    said.dedup();
    assert_eq!(said.len(), all.len());
}

//! A trace that is lent to the library for one question after another, and put to the reference beside it.

use reference::{Claim, ROW_BYTES, Refusal, Trace};

use crate::Outcome;
use crate::library;
use crate::margins::{Lent, PATTERN};
use crate::trace_calls::question::{Numbers, Question};

/// What the room for an answer holds before a call. No bit is the same in both, so a number that is not written shows.
const OLD: [u64; 2] = [PATTERN, !PATTERN];

/// A trace with what the reference says of it.
pub struct Asked<'a> {
    bytes: &'a [u8],
    trace: Result<Trace<'a>, Refusal>,
    lent: Lent,
    answers: usize,
}

impl<'a> Asked<'a> {
    /// A trace, right or wrong.
    pub fn new(bytes: &'a [u8]) -> Asked<'a> {
        Asked { bytes, trace: Trace::accepted(bytes), lent: Lent::new(bytes), answers: 0 }
    }

    /// The trace, if the reference accepts it.
    pub fn trace(&self) -> Result<Trace<'a>, Refusal> {
        self.trace
    }

    /// How many questions were answered.
    pub fn answers(&self) -> usize {
        self.answers
    }

    /// The answer, if both come to the same and the library wrote nothing else. The trace is looked at after each call.
    pub fn ask(&mut self, question: Question) -> Outcome<Numbers> {
        let meant = question.put_to_reference(self.bytes, self.trace);
        for old in OLD {
            self.put(question, old, &meant)?;
            self.untouched().map_err(|error| format!("{question:?}: {error}"))?;
        }
        self.answers += 1;
        Ok(meant)
    }

    /// The answer to one call, if both come to the same and the library wrote nothing else.
    pub fn ask_once(&mut self, question: Question) -> Outcome<Numbers> {
        let answer = self.ask_unseen(question)?;
        self.untouched().map_err(|error| format!("{question:?}: {error}"))?;
        Ok(answer)
    }

    /// The answer to one call, if both come to the same. To look at the trace is left to do after many such calls.
    pub fn ask_unseen(&mut self, question: Question) -> Outcome<Numbers> {
        let meant = question.put_to_reference(self.bytes, self.trace);
        self.put(question, OLD[self.answers % OLD.len()], &meant)?;
        self.answers += 1;
        Ok(meant)
    }

    /// Calls the library once, over numbers that are all `old`; its answer must be what is meant.
    fn put(&mut self, question: Question, old: u64, meant: &[u64]) -> Outcome<()> {
        let found = question.put_to_library(self.lent.bytes(), old)?;
        if found == meant {
            return Ok(());
        }
        Err(format!("{question:?}: the library answers {found:?}, the reference {meant:?}"))
    }

    /// Nothing was written into the trace, or beside it.
    pub fn untouched(&self) -> Outcome<()> {
        self.lent.untouched()
    }

    /// Both must give the answer that is meant.
    pub fn expect(&mut self, question: Question, meant: &[u64]) -> Outcome<()> {
        self.ask(question).and_then(|answer| as_meant(question, &answer, meant))
    }

    /// Both must give the answer that is meant to one call; the trace is not looked at.
    pub fn expect_unseen(&mut self, question: Question, meant: &[u64]) -> Outcome<()> {
        self.ask_unseen(question).and_then(|answer| as_meant(question, &answer, meant))
    }

    /// Both must refuse by a number, and say nothing else.
    pub fn expect_refusal(&mut self, question: Question, number: u64) -> Outcome<()> {
        self.expect(question, &question.refused(number))
    }

    /// Instruction k must have this claim, and its rows must be so many from a row on.
    pub fn expect_instruction(&mut self, k: u64, claim: &Claim, first: usize, rows: usize) -> Outcome<()> {
        let [first, length] = [first, rows].map(|rows| (rows * ROW_BYTES) as u64);
        self.expect(Question::Rows { k }, &[0, 0, 0, first, length])?;
        self.expect(Question::Claim { k }, &library::claim_answer(Ok(*claim)))
    }

    /// A step from a row must take so many rows if as many whole ones remain, else give nothing and stay.
    pub fn expect_step(&mut self, next: usize, takes: usize) -> Outcome<()> {
        let remain = next + takes <= self.bytes.len() / ROW_BYTES;
        let meant = if remain { [next * ROW_BYTES, takes * ROW_BYTES, next + takes] } else { [0, 0, next] };
        self.expect(Question::Step { next: next as u64 }, &meant.map(|number| number as u64))
    }

    /// A step from a row that is not there must give nothing and stay.
    pub fn expect_no_step(&mut self, next: u64) -> Outcome<()> {
        self.expect(Question::Step { next }, &[0, 0, next])
    }

    /// A walk from the opening on must give cycles of so many rows each, one behind the other and up to the end, and
    /// then stay where it is.
    pub fn expect_walk(&mut self, empty: usize, cycles: impl IntoIterator<Item = usize>) -> Outcome<()> {
        let mut next = empty;
        self.expect(Question::Open, &[0, 0, 0, next as u64])?;
        for rows in cycles {
            let meant = [next * ROW_BYTES, rows * ROW_BYTES, next + rows].map(|number| number as u64);
            self.expect_unseen(Question::Step { next: next as u64 }, &meant)?;
            next += rows;
        }
        self.expect_end(next as u64)
    }

    /// A walk from the opening on must give the parts that are the rows of instruction 1, 2 and so on up to the last, and
    /// then stay where it is.
    pub fn expect_walk_of_all_rows(&mut self, instructions: u64) -> Outcome<()> {
        let mut next = self.ask(Question::Open)?[3];
        for k in 1..=instructions {
            let rows = self.ask_once(Question::Rows { k })?;
            let step = self.ask_once(Question::Step { next })?;
            if step[..2] != rows[3..] {
                return Err(format!(
                    "the step from row {next} gives {step:?}, the rows of instruction {k} are {rows:?}"
                ));
            }
            next = step[2];
        }
        self.expect_end(next)
    }

    /// A walker at this row must be at the end of the trace, and stay there.
    fn expect_end(&mut self, next: u64) -> Outcome<()> {
        let rows = self.bytes.len() / ROW_BYTES;
        if next != rows as u64 {
            return Err(format!("the walk ends at row {next}, the trace has {rows}"));
        }
        self.expect_no_step(next)
    }
}

/// An answer in which both agree must be what its author means.
fn as_meant(question: Question, answer: &[u64], meant: &[u64]) -> Outcome<()> {
    if answer == meant { Ok(()) } else { Err(format!("{question:?}: both answer {answer:?}, meant is {meant:?}")) }
}

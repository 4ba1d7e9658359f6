//! Random questions about a trace, put to both.

use reference::ROW_BYTES;
use reference::row::first_rows;

use crate::Outcome;
use crate::trace_calls::asked::Asked;
use crate::trace_calls::everything::needed;
use crate::trace_calls::question::Question;
use crate::trials::cast::{MOST_CYCLES, context};
use crate::trials::random::Random;
use crate::trials::tally::{Call, Met, Tally};

/// So many times a trace is asked a question of each kind.
const ROUNDS: usize = 3;
/// Contexts to ask about are picked from so many instructions.
const MOST_CONTEXTS: usize = 100;
/// One in so many right traces is walked through, with a call for the rows of each instruction.
const WALK_ONCE_IN: usize = 16;

/// Puts questions of every kind, and for some right traces a walk.
pub fn ask_some(bytes: &[u8], random: &mut Random, tally: &mut Tally) -> Outcome<()> {
    let mut asked = Asked::new(bytes);
    let contexts: Vec<u32> = first_rows(bytes).take(MOST_CONTEXTS).map(|row| row.cn).collect();
    for _ in 0..ROUNDS {
        let instructions = asked.trace().map_or(20, |trace| trace.instructions());
        let cn = some_context(&contexts, random);
        let needed = asked.trace().map_or(instructions, |trace| needed(&trace, cn));
        for question in [
            Question::Rows { k: some_instruction(instructions, random) },
            Question::Claim { k: some_instruction(instructions, random) },
            Question::LastState { cn, limit: some_limit(needed, random) },
            Question::Open,
            Question::Step { next: some_row(bytes.len() / ROW_BYTES, random) },
        ] {
            tally.enter(met(question, &asked.ask_once(question)?));
        }
    }
    match asked.trace() {
        Ok(trace) if trace.instructions() <= MOST_CYCLES as u64 && random.once_in(WALK_ONCE_IN) => {
            asked.expect_walk_of_all_rows(trace.instructions())
        }
        _ => Ok(()),
    }
}

/// A number with one bit more, which a narrow number would lose.
fn with_a_high_bit(number: u64, random: &mut Random) -> u64 {
    number.wrapping_add(1 << (8 + random.below(56)))
}

/// Mostly an instruction; sometimes 0, past the last, or far past it.
fn some_instruction(instructions: u64, random: &mut Random) -> u64 {
    let some = 1 + random.below(instructions.max(1) as usize) as u64;
    match random.below(12) {
        0 => 0,
        1 => instructions + 1,
        2 => instructions + 1 + random.below(100) as u64,
        3 => u64::MAX - random.below(3) as u64,
        4 => with_a_high_bit(some, random),
        5 => instructions,
        6 => 1,
        _ => some,
    }
}

/// Mostly a context of the trace; sometimes another that differs in a bit, any other, or 0.
fn some_context(contexts: &[u32], random: &mut Random) -> u32 {
    let any = context(random);
    let some = if contexts.is_empty() { any } else { random.pick(contexts) };
    match random.below(10) {
        0 => 0,
        1 => any,
        2 => some ^ 1 << random.below(32),
        _ => some,
    }
}

/// Mostly about as many cycles as are needed.
fn some_limit(needed: u64, random: &mut Random) -> u64 {
    let short = needed.saturating_sub(1);
    match random.below(10) {
        0 => 0,
        1 => u64::MAX - random.below(3) as u64,
        2 => with_a_high_bit(short, random),
        3 => random.below(40) as u64,
        4 | 5 => short,
        6 => needed + 1,
        _ => needed,
    }
}

/// Mostly a row that is there; sometimes one past the end, or far past it.
fn some_row(rows: usize, random: &mut Random) -> u64 {
    let some = random.below(rows + 2) as u64;
    match random.below(10) {
        0 => rows.saturating_sub(random.below(20)) as u64,
        1 => some.wrapping_add(1 << (17 + random.below(47))),
        2 => u64::MAX - random.below(20) as u64,
        3 => random.next() >> random.below(64),
        _ => some,
    }
}

/// What an answer is counted as.
fn met(question: Question, answer: &[u64]) -> Met {
    let call = match question {
        Question::Rows { .. } => Call::Rows,
        Question::Claim { .. } => Call::Claim,
        Question::LastState { .. } => Call::LastState,
        Question::Open => Call::Open,
        Question::Step { .. } if answer[1] == 0 => return Met::Stay,
        Question::Step { .. } => return Met::Answer(Call::Step),
    };
    match answer[0] {
        0 => Met::Answer(call),
        number => Met::Refusal(call, number as u8),
    }
}

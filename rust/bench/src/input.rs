//! The inputs: lists of instructions, and the traces that the reference makes of them.

use reference::fill::MAX_LIST;
use reference::list::Fields;
use reference::{MAX_ROWS, ROW_BYTES};

use crate::Outcome;
use crate::block::Block;
use crate::program::{self, Program};
use crate::random::Random;

/// The seed of every list, so that it is the same in every run; where there are several of one kind, the next have the
/// next.
pub const SEED: u64 = 1;
/// The empty rows of every trace.
pub const EMPTY_ROWS: u64 = 1;
/// So many instructions in bounds fill a trace, each with three rows.
pub const MOST_IN_BOUNDS: usize = in_bounds_of(MAX_ROWS);
/// So many instructions out of bounds fill a trace, each with 17 rows.
const MOST_OUT_OF_BOUNDS: usize = cycles_of(MAX_ROWS, 17);
/// The contexts of the instructions out of bounds, in turn.
const FAR_CONTEXTS: u32 = 7;
/// The contexts of `Input::Mixed`.
const MIXED_CONTEXTS: u32 = 2_000;
/// The context of the first instruction of `Input::FarBack`, and of no other.
pub const FIRST_CONTEXT: u32 = 1;
/// What a buffer holds before it is filled, so that a zero that is not written shows.
const OLD_BYTE: u8 = 0xff;

/// How many cycles of so many rows fill a trace after its empty rows.
const fn cycles_of(rows: usize, cycle: usize) -> usize {
    (rows - EMPTY_ROWS as usize) / cycle
}

const fn in_bounds_of(rows: usize) -> usize {
    cycles_of(rows, 3)
}

/// A list of instructions. Where no rows are said, its trace has as many as a trace may have.
#[derive(Clone, Copy, Debug, PartialEq, Eq)]
pub enum Input {
    /// One context, whose trace has so many rows.
    One { rows: usize },
    /// 64 contexts in turn.
    Interleaved,
    /// A block of calls, whose trace has so many rows.
    Block { rows: usize },
    /// All instructions out of bounds.
    OutOfBounds,
    /// Each instruction of a context taken at random out of 2,000.
    Mixed,
    /// Each instruction of another context, with numbers that rise.
    Rising,
    /// Each instruction of another context, with numbers that fall.
    Falling,
    /// The first instruction of one context, all others of another.
    FarBack,
    /// As many bytes as a list may have, in lines as programs have them.
    MostBytes,
    /// As many bytes as a list may have, in lines as long as may be.
    LongestLines,
}

/// What a call is lent: a list, and a buffer for its trace or the trace itself.
pub struct Lent {
    /// The list.
    pub list: Vec<u8>,
    /// The buffer or the trace.
    pub trace: Vec<u8>,
}

impl Input {
    /// The word by which a case names it, and what it is.
    pub fn names(self) -> (&'static str, &'static str) {
        match self {
            Input::One { .. } => ("one", "one context"),
            Input::Interleaved => ("64", "64 contexts interleaved"),
            Input::Block { .. } => ("block", "a block of calls"),
            Input::OutOfBounds => ("oob", "all out of bounds"),
            Input::Mixed => ("mixed", "2,000 contexts in random order"),
            Input::Rising => ("rising", "21,845 contexts, rising"),
            Input::Falling => ("falling", "21,845 contexts, falling"),
            Input::FarBack => ("far", "the context's only cycle is the first"),
            Input::MostBytes => ("usual", "4 MB list, usual lines"),
            Input::LongestLines => ("longest", "4 MB list, longest lines"),
        }
    }

    /// The text of the list for a seed.
    fn list(self, seed: u64) -> Vec<u8> {
        let random = &mut Random::new(seed);
        match self {
            Input::One { rows } => in_turn(1, in_bounds_of(rows), random),
            Input::Interleaved => in_turn(64, MOST_IN_BOUNDS, random),
            Input::Block { rows } => {
                let mut block = Block::new();
                lines(in_bounds_of(rows), |_| block.step(random))
            }
            Input::OutOfBounds => {
                lines(MOST_OUT_OF_BOUNDS, |step| program::out_of_bounds(1 + step as u32 % FAR_CONTEXTS, random))
            }
            Input::Mixed => mixed(random),
            Input::Rising => lines(MOST_IN_BOUNDS, |step| Program::new(1 + step as u32).step(random)),
            Input::Falling => lines(MOST_IN_BOUNDS, |step| Program::new((MOST_IN_BOUNDS - step) as u32).step(random)),
            Input::FarBack => far_back(random),
            Input::MostBytes => most_bytes(in_turn(64, MAX_LIST / SHORTEST, random)),
            Input::LongestLines => most_bytes(lines(MAX_LIST / LONGEST, |_| longest())),
        }
    }

    /// Whether the list makes more rows than a trace may have, so that it is read to its end and refused.
    pub fn is_too_much(self) -> bool {
        matches!(self, Input::MostBytes | Input::LongestLines)
    }

    /// The rows of its trace, or as many as a trace may have.
    fn rows(self) -> usize {
        match self {
            Input::One { rows } | Input::Block { rows } => rows,
            _ => MAX_ROWS,
        }
    }

    /// The list for a seed, and a buffer that is large enough.
    pub fn with_buffer(self, seed: u64) -> Lent {
        Lent { list: self.list(seed), trace: vec![OLD_BYTE; self.rows() * ROW_BYTES] }
    }

    /// The list for a seed, and its trace.
    pub fn with_trace(self, seed: u64) -> Outcome<Lent> {
        let mut lent = self.with_buffer(seed);
        let filled = reference::fill(&lent.list, EMPTY_ROWS, &mut lent.trace);
        let rows = filled.map_err(|refusal| format!("{}: the reference answers {refusal}", self.names().1))?;
        lent.trace.truncate(rows * ROW_BYTES);
        Ok(lent)
    }
}

/// Lines with fields for each step.
fn lines(steps: usize, fields: impl FnMut(usize) -> Fields) -> Vec<u8> {
    (0..steps).map(fields).map(|fields| fields.to_string()).collect::<String>().into_bytes()
}

/// Programs of some contexts that take steps in turn.
fn in_turn(contexts: u32, steps: usize, random: &mut Random) -> Vec<u8> {
    let mut programs: Vec<Program> = (1..=contexts).map(Program::new).collect();
    lines(steps, |step| programs[step % contexts as usize].step(random))
}

/// Programs of contexts that take steps in random order.
fn mixed(random: &mut Random) -> Vec<u8> {
    let mut programs: Vec<Program> = (1..=MIXED_CONTEXTS).map(Program::new).collect();
    lines(MOST_IN_BOUNDS, |_| programs[random.below(MIXED_CONTEXTS.into()) as usize].step(random))
}

fn far_back(random: &mut Random) -> Vec<u8> {
    let mut programs = [FIRST_CONTEXT, FIRST_CONTEXT + 1].map(Program::new);
    lines(MOST_IN_BOUNDS, |step| programs[step.min(1)].step(random))
}

/// The bytes of the shortest line.
const SHORTEST: usize = 37;
/// The bytes of the longest line.
const LONGEST: usize = 168;

/// An instruction whose line is as long as may be.
fn longest() -> Fields {
    let most = u128::MAX;
    Fields { cn: u32::MAX, op: 0xfa, at1: most, len1: most, at2: most, len2: most }
}

/// The first lines of a list that is not too short, and two more that make it as long as it may be.
fn most_bytes(mut list: Vec<u8>) -> Vec<u8> {
    let room_for_lines = &list[..MAX_LIST - 2 * SHORTEST];
    let kept = room_for_lines.iter().rposition(|&byte| byte == b'\n').map_or(0, |newline| newline + 1);
    list.truncate(kept);
    let left = MAX_LIST - kept;
    for bytes in [left / 2, left - left / 2] {
        list.extend(line_of(bytes).bytes());
    }
    list
}

/// A line of so many bytes.
fn line_of(bytes: usize) -> String {
    let mut more = bytes - SHORTEST;
    let mut number = || {
        let digits = more.min(31);
        more -= digits;
        "1".repeat(1 + digits)
    };
    let [at1, len1, at2, len2] = [(); 4].map(|()| number());
    format!("cn=1 op=f1 at1={at1} len1={len1} at2={at2} len2={len2}\n")
}

#[cfg(test)]
mod tests {
    use super::*;
    use reference::row::first_rows;
    use reference::{Claim, Refusal};
    use std::collections::HashSet;

    fn trace(input: Input) -> Vec<u8> {
        input.with_trace(SEED).expect("the reference fills it").trace
    }

    fn contexts(trace: &[u8]) -> Vec<u32> {
        first_rows(trace).map(|row| row.cn).collect()
    }

    #[test]
    fn traces_have_the_rows_that_are_said() {
        for rows in [1_000, 4_000, 16_000, MAX_ROWS] {
            assert_eq!(trace(Input::One { rows }).len(), rows * ROW_BYTES);
            assert_eq!(trace(Input::Block { rows }).len(), rows * ROW_BYTES);
        }
        let full =
            [Input::Interleaved, Input::OutOfBounds, Input::Mixed, Input::Rising, Input::Falling, Input::FarBack];
        for input in full {
            assert_eq!(trace(input).len(), MAX_ROWS * ROW_BYTES, "{input:?}");
        }
    }

    #[test]
    fn programs_grow_memory_and_touch_it_again() {
        for input in [Input::One { rows: MAX_ROWS }, Input::Interleaved, Input::Block { rows: MAX_ROWS }, Input::Mixed]
        {
            let trace = trace(input);
            let growing = first_rows(&trace).filter(|row| row.flag == 1).count();
            assert!((MOST_IN_BOUNDS / 100..MOST_IN_BOUNDS / 2).contains(&growing), "{input:?}: {growing} grow");
            assert!(first_rows(&trace).all(|row| row.ooob == 0));
        }
    }

    #[test]
    fn contexts_are_those_that_are_said() {
        assert_eq!(contexts(&trace(Input::One { rows: 1_000 })), [1; 333]);
        let interleaved = contexts(&trace(Input::Interleaved));
        assert!(interleaved.windows(64).all(|part| part.iter().collect::<HashSet<_>>().len() == 64));
        let mixed = contexts(&trace(Input::Mixed));
        assert_eq!(mixed.iter().collect::<HashSet<_>>().len(), 2_000);
        assert!(!mixed.is_sorted() && mixed[..2_000].iter().collect::<HashSet<_>>().len() < 2_000);
        let all: Vec<u32> = (1..=MOST_IN_BOUNDS as u32).collect();
        assert_eq!(contexts(&trace(Input::Rising)), all);
        assert!(contexts(&trace(Input::Falling)).iter().rev().eq(&all));
        let far_back = contexts(&trace(Input::FarBack));
        assert_eq!(far_back.iter().position(|&cn| cn == FIRST_CONTEXT), Some(0));
        assert_eq!(far_back.iter().filter(|&&cn| cn == FIRST_CONTEXT).count(), 1);
    }

    /// About one context to 14 instructions, whatever the rows.
    #[test]
    fn a_block_has_contexts_in_proportion_to_its_rows() {
        for (rows, least, most) in [(1_000, 10, 40), (4_000, 70, 115), (16_000, 330, 420), (MAX_ROWS, 1_400, 1_600)] {
            let of_block: HashSet<u32> = contexts(&trace(Input::Block { rows })).into_iter().collect();
            assert!((least..=most).contains(&of_block.len()), "{rows} rows: {} contexts", of_block.len());
        }
    }

    #[test]
    fn each_end_is_the_one_out_of_bounds_and_both_are() {
        let trace = trace(Input::OutOfBounds);
        let claims: Vec<Claim> = first_rows(&trace).map(|row| Claim::of_row(&row)).collect();
        assert!(claims.iter().all(|claim| !claim.in_bounds()));
        let far = |end| end >= reference::BOUND;
        for ends in [(true, false), (false, true), (true, true)] {
            assert!(claims.iter().any(|claim| (far(claim.end1), far(claim.end2)) == ends), "{ends:?}");
        }
    }

    #[test]
    fn the_longest_lists_are_right_to_the_end_and_too_much() {
        for input in [Input::MostBytes, Input::LongestLines] {
            assert!(input.is_too_much());
            let Lent { list, mut trace } = input.with_buffer(SEED);
            assert_eq!(list.len(), MAX_LIST, "{input:?}");
            let too_many_rows = Refusal { number: 7, line: 0 };
            assert_eq!(reference::fill(&list, EMPTY_ROWS, &mut trace), Err(too_many_rows), "{input:?}");
        }
    }
}

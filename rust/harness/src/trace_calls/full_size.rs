//! Traces of as many rows as there may be, asked all over. What is meant is worked out from the claims that they were
//! made from.

use reference::list::claims;
use reference::{Claim, Draft, MAX_ROWS, ROW_BYTES};

use crate::Outcome;
use crate::check::full_size::{IN_BOUNDS, all_contexts, in_bounds, out_of_bounds};
use crate::fill;
use crate::library;
use crate::trace_calls::asked::Asked;
use crate::trace_calls::question::Question;

/// A full trace: its claims after some empty rows.
struct Full {
    name: &'static str,
    empty: usize,
    claims: Vec<Claim>,
}

/// Compares on every such trace; answers how many answers there were.
pub fn compare_all() -> Outcome<usize> {
    let full = |name, empty, claims| Full { name, empty, claims };
    let mixed = claims(fill::full_size::mixed().as_bytes()).flatten().collect();
    let near = Claim::small(7, 705, 33);
    let far = Claim::small(7, 705, 0x0100_0000);
    let mut answers = 0;
    for full in [
        full("in bounds", 1, claims_of(&in_bounds(1))),
        full("out of bounds", 1, claims_of(&out_of_bounds(1))),
        full("both kinds", 1, mixed),
        full("a context far back", 1, claims_of(&far_back())),
        full("a last instruction alone", MAX_ROWS - 3, vec![near]),
        full("a last instruction out of bounds alone", MAX_ROWS - 17, vec![far]),
        full("empty rows", MAX_ROWS, vec![]),
    ] {
        answers += full.compare().map_err(|error| format!("calls at full size, {}: {error}", full.name))?;
    }
    let a_context_each = a_context_each().map_err(|error| format!("calls at full size, a context each: {error}"))?;
    Ok(answers + a_context_each)
}

/// One instruction of context 1, and then as many of another as there is room for.
fn far_back() -> Draft {
    let claim = |step: u32| if step == 0 { Claim::small(1, 705, 0) } else { Claim::small(2, step, 0) };
    Draft::new(1, &(0..IN_BOUNDS).map(claim).collect::<Vec<_>>())
}

/// The claims that a right trace was made from.
fn claims_of(draft: &Draft) -> Vec<Claim> {
    let first_rows = draft.rows.iter().filter(|row| row.stamp != 0 && row.ct == 0);
    first_rows.map(Claim::of_row).collect()
}

/// How many rows the cycle of a claim has.
pub fn rows_of(claim: &Claim) -> usize {
    if claim.in_bounds() { 3 } else { 17 }
}

/// What bytes cost, by their words: 3a + a*a/512.
fn cost(bytes: u64) -> u64 {
    let words = bytes.div_ceil(32);
    3 * words + words * words / 512
}

impl Full {
    /// Puts questions of all kinds to both, and walks through the whole trace.
    fn compare(&self) -> Outcome<usize> {
        let Full { empty, claims, .. } = self;
        let bytes = Draft::new(*empty, claims).to_bytes();
        let mut asked = Asked::new(&bytes);
        self.some_instructions(&mut asked)?;
        self.some_contexts(&mut asked)?;
        asked.expect_walk(*empty, claims.iter().map(rows_of))?;
        Ok(asked.answers())
    }

    /// The first instructions, the last ones and some between; and numbers that are none.
    fn some_instructions(&self, asked: &mut Asked) -> Outcome<()> {
        let Full { empty, claims, .. } = self;
        let mut first = *empty;
        for (k, claim) in (1..).zip(claims) {
            if k <= 2 || k % 2_003 == 0 || claims.len() as u64 - k < 2 {
                asked.expect_instruction(k, claim, first, rows_of(claim))?;
            }
            first += rows_of(claim);
        }
        for k in [0, claims.len() as u64 + 1, (1 << 16) + 1, (1 << 32) + 1, u64::MAX] {
            asked.expect_refusal(Question::Rows { k }, 12)?;
            asked.expect_refusal(Question::Claim { k }, 12)?;
        }
        Ok(())
    }

    /// Some contexts that are there and one that is not, at limits around what they need.
    fn some_contexts(&self, asked: &mut Asked) -> Outcome<()> {
        for cn in [1, 2, 7, 97, u32::MAX] {
            let own = || self.claims.iter().filter(|claim| claim.cn == cn && claim.in_bounds());
            let reached = own().map(|claim| claim.end1.max(claim.end2)).max().unwrap_or_default();
            let mem = u32::try_from(reached).expect("an end in bounds").into();
            let back = self.claims.iter().rev().position(|claim| claim.cn == cn);
            let looked = back.map_or(self.claims.len(), |others| others + 1) as u64;
            let meant = [0, 0, 0, mem, cost(mem), looked];
            if let Some(short) = looked.checked_sub(1) {
                asked.expect_refusal(Question::LastState { cn, limit: short }, 14)?;
                asked.expect_refusal(Question::LastState { cn, limit: 0 }, 14)?;
            }
            for limit in [looked, looked + 1, u64::MAX] {
                asked.expect(Question::LastState { cn, limit }, &meant)?;
            }
        }
        [0, u64::MAX].into_iter().try_for_each(|limit| asked.expect_refusal(Question::LastState { cn: 0, limit }, 13))
    }
}

/// As many contexts as instructions. A check of this trace takes long, so there are few questions.
fn a_context_each() -> Outcome<usize> {
    let bytes = all_contexts().to_bytes();
    let mut asked = Asked::new(&bytes);
    let all = u64::from(IN_BOUNDS);
    let last_state = |cn, limit| Question::LastState { cn, limit };
    let looked = all - 9_999;
    let claim = Claim::small(IN_BOUNDS, IN_BOUNDS, 0);
    asked.expect_unseen(last_state(1, all), &[0, 0, 0, 1, cost(1), all])?;
    asked.expect_unseen(last_state(1, all - 1), &last_state(1, 0).refused(14))?;
    asked.expect_unseen(last_state(10_000, looked), &[0, 0, 0, 10_000, cost(10_000), looked])?;
    asked.expect_unseen(last_state(IN_BOUNDS + 1, all), &[0, 0, 0, 0, 0, all])?;
    let rows = (MAX_ROWS - 3) * ROW_BYTES..MAX_ROWS * ROW_BYTES;
    asked.expect_unseen(Question::Rows { k: all }, &library::rows_answer(Ok(rows)))?;
    asked.expect_unseen(Question::Claim { k: all }, &library::claim_answer(Ok(claim)))?;
    asked.untouched()?;
    Ok(asked.answers())
}

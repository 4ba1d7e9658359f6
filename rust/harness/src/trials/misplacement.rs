//! Cycles that are right by themselves and stand where they should not: at another stamp, at a state that their context
//! does not have, or of another context. They are put in the place of right ones.

use std::collections::HashMap;
use std::ops::Range;

use reference::make::make_cycle;
use reference::{Claim, Draft, Row, State};

use crate::trials::meetings::MODULI;
use crate::trials::random::Random;

/// Puts the cycle of a claim in the place of another.
fn put(draft: &mut Draft, cycle: Range<usize>, stamp: u32, claim: &Claim, state: State) {
    draft.rows.splice(cycle, make_cycle(stamp, claim, state));
}

fn state_before(row: &Row) -> State {
    State { mem: row.mem, cost: row.cost }
}

fn state_after(row: &Row) -> State {
    State { mem: row.memn, cost: row.costn }
}

/// The first rows of the cycles before a row, from the latest back.
fn cycles_before(draft: &Draft, at: usize) -> impl Iterator<Item = &Row> {
    draft.rows[..at].iter().rev().filter(|row| row.stamp != 0 && row.ct == 0)
}

/// The same cycle at another stamp: one that is near, one that another cycle has, or any.
pub fn another_stamp(draft: &mut Draft, cycle: Range<usize>, random: &mut Random) {
    let row = draft.rows[cycle.start];
    let elsewhere = draft.rows[random.below(draft.rows.len())].stamp;
    let some_bits = random.next() as u32 >> random.below(32);
    let near = [row.stamp.wrapping_add(1), row.stamp.wrapping_sub(1), row.stamp ^ 1 << random.below(32)];
    let stamp = random.pick(&[near[0], near[1], near[2], elsewhere, some_bits]);
    put(draft, cycle, stamp, &Claim::of_row(&row), state_before(&row));
}

/// The claim of this cycle or a later one at the state that its context had before the latest change, if there is one
/// whose context has had two.
pub fn earlier_state(draft: &mut Draft, cycle: Range<usize>, random: &mut Random) {
    let changed = changed_states(draft);
    let later = changed.iter().copied().find(|(start, _)| *start >= cycle.start);
    let Some((start, state)) = later.or_else(|| (!changed.is_empty()).then(|| random.pick(&changed))) else {
        return as_if_new(draft, cycle, random);
    };
    let row = draft.rows[start];
    let rows = draft.rows[start..].iter().take_while(|other| other.stamp == row.stamp).count();
    put(draft, start..start + rows, row.stamp, &Claim::of_row(&row), state);
}

/// The cycles whose context has been in two states since it was new: their first rows, and the earlier state.
fn changed_states(draft: &Draft) -> Vec<(usize, State)> {
    let mut states: HashMap<u32, [State; 2]> = HashMap::new();
    let mut changed = Vec::new();
    for (at, row) in draft.rows.iter().enumerate().filter(|(_, row)| row.stamp != 0 && row.ct == 0) {
        let [earlier, latest] = states.entry(row.cn).or_default();
        if *latest != state_before(row) {
            (*earlier, *latest) = (*latest, state_before(row));
        }
        if *earlier != State::default() {
            changed.push((at, *earlier));
        }
    }
    changed
}

/// The same claim at the state of another context: mostly of the latest that shares its remainder, if there is one.
pub fn anothers_state(draft: &mut Draft, cycle: Range<usize>, random: &mut Random) {
    let row = draft.rows[cycle.start];
    let modulus = random.pick(&MODULI);
    let shares = |other: &&Row| other.cn != row.cn && other.cn % modulus == row.cn % modulus;
    let sharing = cycles_before(draft, cycle.start).find(shares).map(state_after);
    let any = state_after(&draft.rows[random.below(draft.rows.len())]);
    let state = if random.once_in(3) { any } else { sharing.unwrap_or(any) };
    put(draft, cycle, row.stamp, &Claim::of_row(&row), state);
}

/// The same claim as if its context were new.
pub fn as_if_new(draft: &mut Draft, cycle: Range<usize>, _: &mut Random) {
    let row = draft.rows[cycle.start];
    put(draft, cycle, row.stamp, &Claim::of_row(&row), State::default());
}

/// The same ends and the same state, but of another context: known, next to it, of the same remainder, next to all that
/// are known, or the least or largest there is.
pub fn another_context(draft: &mut Draft, cycle: Range<usize>, random: &mut Random) {
    let row = draft.rows[cycle.start];
    let cn = others_number(draft, &cycle, random);
    put(draft, cycle, row.stamp, &Claim { cn, ..Claim::of_row(&row) }, state_before(&row));
}

/// The same ends, but of another context and at that one's state: right where it stands, but not what the cycles after
/// it go on from.
pub fn anothers_cycle(draft: &mut Draft, cycle: Range<usize>, random: &mut Random) {
    let row = draft.rows[cycle.start];
    let cn = others_number(draft, &cycle, random);
    let latest = cycles_before(draft, cycle.start).find(|before| before.cn == cn);
    let state = latest.map(state_after).unwrap_or_default();
    put(draft, cycle, row.stamp, &Claim { cn, ..Claim::of_row(&row) }, state);
}

fn others_number(draft: &Draft, cycle: &Range<usize>, random: &mut Random) -> u32 {
    let own = draft.rows[cycle.start].cn;
    let before = || cycles_before(draft, cycle.start).map(|row| row.cn);
    let (lowest, highest) = (before().min().unwrap_or(own), before().max().unwrap_or(own));
    let known = draft.rows[random.below(draft.rows.len())].cn;
    let modulus = random.pick(&MODULI);
    let number = random.pick(&[
        known,
        lowest,
        highest,
        lowest.wrapping_sub(1),
        highest.wrapping_add(1),
        own.wrapping_add(1),
        own.wrapping_sub(1),
        own.wrapping_add(modulus),
        own.wrapping_sub(modulus),
        1,
        u32::MAX,
    ]);
    number.max(1)
}

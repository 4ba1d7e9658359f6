//! Everything of one kind put to both checkers: every bit of a trace, every cut of it, and every cycle of it at other
//! stamps, at other states and of other contexts.

use std::collections::BTreeSet;
use std::ops::Range;

use reference::make::make_cycle;
use reference::{BOUND, Claim, Draft, ROW_BYTES, Row, State, Verdict, Wide};

use crate::Outcome;
use crate::check::compare::compare;

/// The empty rows of each tour.
const EMPTY: usize = 2;

/// Traces in which a cycle of either kind is the first, the last and one between: of contexts that come back, that
/// share their remainders, and that are the least and the largest there may be.
fn tours() -> [Draft; 4] {
    let near = Claim::small;
    let far = |cn, end: u32| Claim { cn, end1: BOUND.wrapping_add(end.into()), end2: Wide::from(end) };
    let either = [near(7, 2_571, 300), far(7, 258), near(1_031, 33, 64), near(7, 0x12_3456, 0x06_5432)];
    let beyond = [far(1, 5), near(1, 64, 96), near(u32::MAX, 64, 0), near(1, 96, 96), far(u32::MAX, 0x01_0000)];
    let within = [near(9, 64, 0), near(8, 32, 0), near(9, 64, 65), near(10, 0, 0), near(8, 0, 1_000), near(9, 1, 0)];
    let again = [near(5, 64, 0), near(6, 32, 0), near(5, 96, 0)];
    [&either[..], &beyond, &within, &again].map(|claims| Draft::new(EMPTY, claims))
}

/// Compares on all of it; answers how many traces there were.
pub fn compare_all() -> Outcome<usize> {
    let mut traces = 0;
    for tour in tours() {
        traces += every_bit(&tour)? + every_cut(&tour)? + every_place(&tour)?;
    }
    Ok(traces)
}

/// Both checkers must come to the same, and say of a trace whether it is right as it is meant, if anything is.
fn expect(trace: &[u8], right: Option<bool>, what: &dyn Fn() -> String) -> Outcome<()> {
    let told = |error: String| format!("check sweep, {}: {error}", what());
    let verdict = compare(trace).map_err(told)?;
    let accepted = matches!(verdict, Verdict::Accepted { .. });
    if right.is_none_or(|right| right == accepted) { Ok(()) } else { Err(told(format!("both answer {verdict}"))) }
}

/// Any one bit changed, which no trace survives.
fn every_bit(tour: &Draft) -> Outcome<usize> {
    let mut bytes = tour.to_bytes();
    for at in 0..bytes.len() {
        for bit in 0..8 {
            bytes[at] ^= 1 << bit;
            expect(&bytes, Some(false), &|| format!("bit {bit} of byte {} in row {}", at % ROW_BYTES, at / ROW_BYTES))?;
            bytes[at] ^= 1 << bit;
        }
    }
    Ok(8 * bytes.len())
}

/// Cut after every row, which is right where a cycle ends or where none has begun.
fn every_cut(tour: &Draft) -> Outcome<usize> {
    let bytes = tour.to_bytes();
    let ends: BTreeSet<usize> = cycles(tour).iter().map(|cycle| cycle.end).chain(1..=EMPTY).collect();
    for kept in 0..=tour.rows.len() {
        expect(&bytes[..kept * ROW_BYTES], Some(ends.contains(&kept)), &|| format!("cut after {kept} rows"))?;
    }
    Ok(tour.rows.len() + 1)
}

/// The rows of each cycle.
fn cycles(tour: &Draft) -> Vec<Range<usize>> {
    let last = tour.rows.last().map_or(0, |row| row.stamp);
    (1..=last).map(|stamp| tour.cycle(stamp)).collect()
}

/// Each cycle as it is made at other stamps, at states of all cycles and near them, and of other contexts; the rest of
/// the trace stays. The right one among them is accepted, and no other at another stamp or state.
fn every_place(tour: &Draft) -> Outcome<usize> {
    let states = states_of(tour);
    let mut traces = 0;
    for cycle in cycles(tour) {
        let row = tour.rows[cycle.start];
        let (own, claim) = (State { mem: row.mem, cost: row.cost }, Claim::of_row(&row));
        let mut put = |stamp, claim: Claim, state, right| {
            let mut rows = tour.rows.clone();
            rows.splice(cycle.clone(), make_cycle(stamp, &claim, state));
            traces += 1;
            expect(&Draft { rows }.to_bytes(), right, &|| {
                format!("cycle {} as {claim:?} at stamp {stamp} and {state:?}", row.stamp)
            })
        };
        for stamp in stamps_near(row.stamp) {
            put(stamp, claim, own, Some(stamp == row.stamp))?;
        }
        for &state in &states {
            put(row.stamp, claim, state, Some(state == own))?;
        }
        // A cycle of another context may be right, and those behind it too.
        for cn in contexts_near(tour, row.cn) {
            for &state in &states {
                put(row.stamp, Claim { cn, ..claim }, state, (cn == 0).then_some(false))?;
            }
        }
    }
    Ok(traces)
}

/// Stamps around one, and such as a narrow or a wrapping number takes for it.
fn stamps_near(stamp: u32) -> impl Iterator<Item = u32> {
    let bits = (0..32).map(move |bit| stamp ^ 1 << bit);
    (0..10).chain(bits).chain([u32::MAX])
}

/// The states before and after all cycles, and those near them; each once.
fn states_of(tour: &Draft) -> Vec<State> {
    let mut states = Vec::new();
    let both = |row: &Row| [(row.mem, row.cost), (row.memn, row.costn)];
    for (mem, cost) in tour.rows.iter().flat_map(both) {
        for (mem, cost) in [(mem, cost), (mem + 1, cost), (mem, cost + 1), (mem, 0), (0, cost)] {
            let state = State { mem, cost };
            if !states.contains(&state) {
                states.push(state);
            }
        }
    }
    states
}

/// The contexts of a trace and others: those next to them, those of the same remainders, the least, the largest and 0.
fn contexts_near(tour: &Draft, own: u32) -> BTreeSet<u32> {
    let known: BTreeSet<u32> = tour.rows.iter().map(|row| row.cn).filter(|&cn| cn != 0).collect();
    let near = |cn: u32| [1, 256, 1_024, 1 << 16].map(|more| [cn.wrapping_add(more), cn.wrapping_sub(more)]);
    let near = known.iter().flat_map(|&cn| near(cn)).flatten();
    known.iter().copied().chain(near).chain([0, 1, u32::MAX]).filter(|&cn| cn != own).collect()
}

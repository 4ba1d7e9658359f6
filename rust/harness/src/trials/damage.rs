//! Random damage to traces: bytes, cells, sums, rows and cycles.

use std::ops::Range;

use reference::make::make_cycle;
use reference::row::Column::*;
use reference::sum::{self, SUMS};
use reference::{Claim, Column, Draft, ROW_BYTES, Row, State, Wide};

use crate::trials::forgery::{Origin, forge, low_bytes, set, sum_to};
use crate::trials::misplacement::{
    another_context, another_stamp, anothers_cycle, anothers_state, as_if_new, earlier_state,
};
use crate::trials::random::Random;
use crate::trials::story;
use crate::trials::tally::{Met, Tally};

type Damage = fn(&mut Draft, &mut Random);
type Misplacement = fn(&mut Draft, Range<usize>, &mut Random);
type ByteDamage = fn(&mut Vec<u8>, &mut Random);

/// Every kind of damage to the rows of a trace, by name, with the weight at which it is picked.
const DAMAGES: [(&str, usize, Damage); 19] = [
    ("a cell", 4, cell),
    ("a cell of a first, second or last row", 6, cell_of_line),
    ("a column in a cycle", 4, column_in_cycle),
    ("a byte and its sums", 1, byte_and_sums),
    ("a whole sum", 2, whole_sum),
    ("an end and its sum", 1, end_and_sum),
    ("a coherent cycle but for one thing", 8, forged_cycle),
    ("another claim in one cycle", 2, another_claim),
    ("a row of zeros or the largest", 1, fill_row),
    ("a row for another", 1, replace_row),
    ("a row repeated", 1, repeat_row),
    ("two rows swapped", 1, swap_rows),
    ("a row left out", 1, drop_row),
    ("a cycle repeated", 1, repeat_cycle),
    ("two cycles swapped", 1, swap_cycles),
    ("a cycle moved", 1, move_cycle),
    ("a cycle left out", 1, drop_cycle),
    ("a trace cut at its end", 1, cut_end),
    ("a trace cut at its start", 1, cut_start),
];

/// Every kind of cycle that is put where it should not stand, by name, with the weight at which it is picked.
const MISPLACEMENTS: [(&str, usize, Misplacement); 6] = [
    ("a cycle at another stamp", 2, another_stamp),
    ("a cycle at an earlier state", 3, earlier_state),
    ("a cycle at another's state", 3, anothers_state),
    ("a cycle as if its context were new", 2, as_if_new),
    ("a cycle of another context", 2, another_context),
    ("another context's own cycle", 2, anothers_cycle),
];

/// One in so many kinds of damage to a trace is a cycle where it should not stand.
const MISPLACED_ONCE_IN: usize = 4;

/// Every kind of damage to the bytes of a trace that is not empty, by name, with the weight at which it is picked.
const BYTE_DAMAGES: [(&str, usize, ByteDamage); 4] = [
    ("bytes cut off", 1, cut_bytes),
    ("bytes more", 1, more_bytes),
    ("a byte of a trace", 1, |bytes, random| change_byte(bytes, random)),
    ("a bit of a trace", 1, |bytes, random| change_bit(bytes, random)),
];

/// What several kinds of damage to one trace are counted as, beside each of them.
const SEVERAL: &str = "several kinds to one trace";

/// The names of all kinds of damage.
pub fn names() -> impl Iterator<Item = &'static str> {
    let of_rows = DAMAGES.iter().map(|&(name, ..)| name);
    let of_cycles = MISPLACEMENTS.iter().map(|&(name, ..)| name);
    let of_bytes = BYTE_DAMAGES.iter().map(|&(name, ..)| name);
    of_rows.chain(of_cycles).chain(of_bytes).chain([SEVERAL])
}

/// The bytes of a trace after one or several kinds of damage.
pub fn damaged(mut draft: Draft, random: &mut Random, tally: &mut Tally) -> Vec<u8> {
    let times = random.pick(&[0, 1, 1, 1, 1, 1, 1, 1, 2, 3]);
    for _ in 0..times {
        if draft.rows.is_empty() {
            continue;
        }
        if random.once_in(MISPLACED_ONCE_IN) {
            misplace(&mut draft, random, tally);
        } else {
            let (name, damage) = random.pick_weighted(&DAMAGES);
            damage(&mut draft, random);
            tally.enter(Met::Damage(name));
        }
    }
    let mut bytes = draft.to_bytes();
    if (times == 0 || random.once_in(8)) && !bytes.is_empty() {
        let (name, damage) = random.pick_weighted(&BYTE_DAMAGES);
        damage(&mut bytes, random);
        tally.enter(Met::Damage(name));
    }
    if times > 1 {
        tally.enter(Met::Damage(SEVERAL));
    }
    bytes
}

/// Puts a cycle that is right by itself in the place of one of a trace.
pub fn misplace(draft: &mut Draft, random: &mut Random, tally: &mut Tally) {
    let cycle = some_cycle(draft, random);
    let (name, put) = random.pick_weighted(&MISPLACEMENTS);
    put(draft, cycle, random);
    tally.enter(Met::Damage(name));
}

fn cut_bytes(bytes: &mut Vec<u8>, random: &mut Random) {
    bytes.truncate(bytes.len().saturating_sub(1 + random.below(2 * ROW_BYTES)));
}

fn more_bytes(bytes: &mut Vec<u8>, random: &mut Random) {
    bytes.resize(bytes.len() + 1 + random.below(2 * ROW_BYTES), random.pick(&[0, u8::MAX]));
}

fn change_byte(bytes: &mut [u8], random: &mut Random) {
    let at = random.below(bytes.len());
    bytes[at] = random.byte();
}

fn change_bit(bytes: &mut [u8], random: &mut Random) {
    let at = random.below(bytes.len());
    bytes[at] ^= 1 << random.below(8);
}

/// Any row; the first, the last, and those of the first cycle and of the last are picked more often than others.
fn some_row(draft: &Draft, random: &mut Random) -> usize {
    let last = draft.rows.len() - 1;
    let first_of_a_cycle = || draft.rows.iter().position(|row| row.stamp != 0).unwrap_or(0);
    match random.below(12) {
        0 => 0,
        1 => last,
        2..5 => (first_of_a_cycle() + random.below(3)).min(last),
        5 | 6 => last.saturating_sub(random.below(3)),
        _ => random.below(draft.rows.len()),
    }
}

/// The rows around some row that share its STAMP, at most as many as a number has bytes.
fn some_cycle(draft: &Draft, random: &mut Random) -> Range<usize> {
    cycle_around(draft, some_row(draft, random))
}

/// The rows around a row that share its STAMP, at most as many as a number has bytes.
fn cycle_around(draft: &Draft, at: usize) -> Range<usize> {
    let alike = |row: &&Row| row.stamp == draft.rows[at].stamp;
    let before = draft.rows[..at].iter().rev().take_while(alike).count();
    let start = at - before.min(Wide::BYTES - 1);
    let length = draft.rows[start..].iter().take_while(alike).count();
    start..start + length.min(Wide::BYTES)
}

/// A number that a wrong program might take for the right one, or that lies at an edge.
fn interesting(draft: &Draft, random: &mut Random, row: usize, column: Column) -> Wide {
    let here = draft.rows[row].get(column);
    let one = Wide::from(1u8);
    let other_row = draft.rows[some_row(draft, random)].get(column);
    let other_column = draft.rows[row].get(random.pick(Column::ALL));
    let any = Wide::from(u128::from(random.next()));
    let number = random.pick(&[
        Wide::ZERO,
        one,
        Wide::from(2u8),
        column.largest(),
        column.highest_bit(),
        here.wrapping_add(one),
        here.wrapping_sub(one),
        here.wrapping_add(column.highest_bit()),
        other_row,
        other_column,
        any,
    ]);
    low_bytes(number, column.width())
}

fn cell(draft: &mut Draft, random: &mut Random) {
    let row = some_row(draft, random);
    let column = random.pick(Column::ALL);
    let number = interesting(draft, random, row, column);
    draft.rows[row].set(column, number);
}

/// A cell that is not as it was, in the first, the second or the last row of a cycle.
fn cell_of_line(draft: &mut Draft, random: &mut Random) {
    let cycle = some_cycle(draft, random);
    let row = random.pick(&[cycle.start, cycle.end.min(cycle.start + 2) - 1, cycle.end - 1]);
    // OOOB and AUX1 have constraints of their own that little else breaks; AUX2 is the last byte of a row.
    let column = if random.once_in(3) { random.pick(&[OOOB, AUX1, AUX2]) } else { random.pick(Column::ALL) };
    let number = interesting(draft, random, row, column);
    let here = draft.rows[row].get(column);
    let next = low_bytes(here.wrapping_add(1u8.into()), column.width());
    draft.rows[row].set(column, if number == here { next } else { number });
}

fn column_in_cycle(draft: &mut Draft, random: &mut Random) {
    let cycle = some_cycle(draft, random);
    let column = random.pick(Column::ALL);
    let number = interesting(draft, random, cycle.start, column);
    set(&mut draft.rows[cycle], column, number);
}

/// A wrong byte, and sums that go along with it to the end of the cycle.
fn byte_and_sums(draft: &mut Draft, random: &mut Random) {
    let cycle = some_cycle(draft, random);
    let sum = random.pick(&SUMS);
    let from = random.below(cycle.len());
    let rows = &mut draft.rows[cycle];
    rows[from].set(sum.byte, random.byte().into());
    let mut reached = if from == 0 { Wide::ZERO } else { rows[from - 1].get(sum.acc) };
    for row in &mut rows[from..] {
        let shifted = reached.checked_append(0).unwrap_or_default();
        reached = low_bytes(shifted.wrapping_add(row.get(sum.byte)), sum.acc.width());
        row.set(sum.acc, reached);
    }
}

/// Bytes that sum up to another number.
fn whole_sum(draft: &mut Draft, random: &mut Random) {
    let cycle = some_cycle(draft, random);
    let sum = random.pick(&SUMS);
    let number = interesting(draft, random, cycle.end - 1, sum.acc);
    sum_to(&mut draft.rows[cycle], sum, number);
}

/// Another end, with bytes that sum up to it.
fn end_and_sum(draft: &mut Draft, random: &mut Random) {
    let cycle = some_cycle(draft, random);
    let (end, sum) = random.pick(&[(END1, sum::ACC1), (END2, sum::ACC2)]);
    let number = interesting(draft, random, cycle.start, end);
    let rows = &mut draft.rows[cycle];
    set(rows, end, number);
    sum_to(rows, sum, number);
}

/// A cycle that is coherent in all but one thing.
fn forged_cycle(draft: &mut Draft, random: &mut Random) {
    let cycle = some_cycle(draft, random);
    let Row { stamp, cn, end1, end2, mem, cost, .. } = draft.rows[cycle.start];
    let other = draft.rows[some_row(draft, random)];
    let origin = Origin {
        stamp,
        claim: Claim { cn, end1, end2 },
        state: State { mem, cost },
        elsewhere: State { mem: other.memn, cost: other.costn },
    };
    draft.rows.splice(cycle, forge(&origin, random));
}

/// The whole cycle of another claim in the place of one, right by itself; the rest of the trace is kept.
fn another_claim(draft: &mut Draft, random: &mut Random) {
    let cycle = some_cycle(draft, random);
    let Row { stamp, cn, mem, cost, .. } = draft.rows[cycle.start];
    let elsewhere = draft.rows[some_row(draft, random)].cn;
    let cn = random.pick(&[cn, cn, elsewhere]);
    let claim = story::claim(cn, random.once_in(4), random);
    draft.rows.splice(cycle, make_cycle(stamp, &claim, State { mem, cost }));
}

/// All cells of a row at their largest or 0, but for the columns before some column.
fn fill_row(draft: &mut Draft, random: &mut Random) {
    let row = some_row(draft, random);
    let largest = random.once_in(2);
    for &column in &Column::ALL[random.below(Column::ALL.len())..] {
        draft.rows[row].set(column, if largest { column.largest() } else { Wide::ZERO });
    }
}

fn replace_row(draft: &mut Draft, random: &mut Random) {
    let [from, to] = [some_row(draft, random), some_row(draft, random)];
    draft.rows[to] = draft.rows[from];
}

/// A row once more, before another.
fn repeat_row(draft: &mut Draft, random: &mut Random) {
    let [from, to] = [some_row(draft, random), some_row(draft, random)];
    draft.rows.insert(to, draft.rows[from]);
}

fn swap_rows(draft: &mut Draft, random: &mut Random) {
    let [one, other] = [some_row(draft, random), some_row(draft, random)];
    draft.rows.swap(one, other);
}

fn drop_row(draft: &mut Draft, random: &mut Random) {
    draft.rows.remove(some_row(draft, random));
}

/// A cycle once more, before another.
fn repeat_cycle(draft: &mut Draft, random: &mut Random) {
    let rows = draft.rows[some_cycle(draft, random)].to_vec();
    let to = some_cycle(draft, random).start;
    draft.rows.splice(to..to, rows);
}

/// Two cycles in each other's place, unless one was picked twice.
fn swap_cycles(draft: &mut Draft, random: &mut Random) {
    let mut cycles = [some_cycle(draft, random), some_cycle(draft, random)];
    cycles.sort_by_key(|cycle| cycle.start);
    let [first, second] = cycles;
    if first.end <= second.start {
        let [one, between, other] = [first.clone(), first.end..second.start, second.clone()];
        let swapped = [other, between, one].map(|rows| draft.rows[rows].to_vec()).concat();
        draft.rows.splice(first.start..second.end, swapped);
    }
}

/// A cycle moved before another or to the end.
fn move_cycle(draft: &mut Draft, random: &mut Random) {
    let cycle = some_cycle(draft, random);
    let rows: Vec<Row> = draft.rows.drain(cycle).collect();
    let last = draft.rows.len();
    let before = if last == 0 { 0 } else { some_cycle(draft, random).start };
    let to = random.pick(&[before, last]);
    draft.rows.splice(to..to, rows);
}

fn drop_cycle(draft: &mut Draft, random: &mut Random) {
    let cycle = some_cycle(draft, random);
    draft.rows.drain(cycle);
}

fn cut_end(draft: &mut Draft, random: &mut Random) {
    let kept = some_row(draft, random);
    draft.rows.truncate(kept);
}

fn cut_start(draft: &mut Draft, random: &mut Random) {
    let dropped = 1 + random.below(draft.rows.len().min(20));
    draft.rows.drain(..dropped);
}

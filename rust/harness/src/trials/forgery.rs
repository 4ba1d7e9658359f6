//! Cycles that are coherent in all but one thing, to be put in the place of right ones. Where a difference is below 0,
//! its cells hold what a program would find that let numbers wrap, or stop at 0.

use reference::make::{make_cycle, pay};
use reference::price::Price;
use reference::row::Column::*;
use reference::sum::{self, Sum, sum_up};
use reference::{BOUND, Claim, Column, Row, State, Wide};

use crate::trials::random::Random;
use crate::trials::story;

/// What a cycle is made from.
pub struct Origin {
    /// The instruction's number.
    pub stamp: u32,
    /// Its claim.
    pub claim: Claim,
    /// The state it goes on from.
    pub state: State,
    /// A state that is found elsewhere in the trace.
    pub elsewhere: State,
}

type Forgery = fn(&Origin, &mut Random) -> Vec<Row>;

const FORGERIES: [Forgery; 9] =
    [no_context, other_state, other_kind, lesser_end, free_growth, no_growth, other_price, other_excess, no_bit];

/// A forged cycle in the place of the one that has this origin.
pub fn forge(origin: &Origin, random: &mut Random) -> Vec<Row> {
    random.pick(&FORGERIES)(origin, random)
}

impl Origin {
    fn make(&self, end1: u32, end2: u32, state: State) -> Vec<Row> {
        make_cycle(self.stamp, &Claim::small(self.claim.cn, end1, end2), state)
    }

    /// The ends of the claim, or others if those are out of bounds.
    fn ends_in_bounds(&self) -> (u32, u32) {
        match (u32::try_from(self.claim.end1), u32::try_from(self.claim.end2)) {
            (Ok(end1), Ok(end2)) if self.claim.in_bounds() => (end1, end2),
            _ => (self.state.mem, 64),
        }
    }
}

/// Puts a number into the cells of a column in all rows.
pub fn set(rows: &mut [Row], column: Column, number: impl Into<Wide>) {
    let number = number.into();
    for row in rows {
        row.set(column, number);
    }
}

/// Lets a cycle sum up to as many low bytes of a number as it has rows and the sum has room for.
pub fn sum_to(cycle: &mut [Row], sum: Sum, number: impl Into<Wide>) {
    let width = cycle.len().min(sum.acc.width());
    sum_up(cycle, sum, low_bytes(number.into(), width));
}

/// The number that the last `width` bytes of another write.
pub fn low_bytes(number: Wide, width: usize) -> Wide {
    let mut bytes = number.to_be_bytes();
    bytes[..Wide::BYTES - width].fill(0);
    Wide::from_be_bytes(bytes)
}

/// Of context 0, which there is not.
fn no_context(origin: &Origin, _: &mut Random) -> Vec<Row> {
    make_cycle(origin.stamp, &Claim { cn: 0, ..origin.claim }, origin.state)
}

/// Goes on from a state that is not its context's.
fn other_state(origin: &Origin, _: &mut Random) -> Vec<Row> {
    make_cycle(origin.stamp, &origin.claim, origin.elsewhere)
}

/// Takes as many rows as the other kind. It is right by itself, but what comes after goes on from another state.
fn other_kind(origin: &Origin, random: &mut Random) -> Vec<Row> {
    if origin.claim.in_bounds() {
        let far = Claim { end1: story::out_of_bounds(random), ..origin.claim };
        make_cycle(origin.stamp, &far, origin.state)
    } else {
        origin.make(origin.state.mem, 0, origin.state)
    }
}

/// COMP chooses the lesser end, or calls equal ends unequal, and all else follows from the choice.
fn lesser_end(origin: &Origin, random: &mut Random) -> Vec<Row> {
    let (end1, other) = origin.ends_in_bounds();
    let end2 = random.pick(&[end1, other]);
    let comp = end1 < end2;
    let mut rows = if comp { origin.make(end1, 0, origin.state) } else { origin.make(0, end2, origin.state) };
    let gap = if comp { end1.wrapping_sub(end2) } else { end2.wrapping_sub(end1).wrapping_sub(1) };
    set(&mut rows, COMP, u8::from(comp));
    set(&mut rows, END1, end1);
    set(&mut rows, END2, end2);
    sum_to(&mut rows, sum::ACC1, end1);
    sum_to(&mut rows, sum::ACC2, end2);
    sum_to(&mut rows, sum::DACC, random.pick(&[0, gap]));
    rows
}

/// FLAG is 0 although the end is past what was reached, so nothing is paid.
fn free_growth(origin: &Origin, random: &mut Random) -> Vec<Row> {
    let State { mem, cost } = origin.state;
    let (end1, end2) = origin.ends_in_bounds();
    let endmax = end1.max(end2);
    let mut rows = origin.make(end1, end2, State { mem: endmax, cost });
    set(&mut rows, MEM, mem);
    set(&mut rows, MEMN, mem);
    sum_to(&mut rows, sum::EACC, random.pick(&[0, mem.wrapping_sub(endmax)]));
    rows
}

/// FLAG is 1 although the end is not past what was reached.
fn no_growth(origin: &Origin, random: &mut Random) -> Vec<Row> {
    let mem = origin.state.mem;
    let end = mem.saturating_sub(random.below(3) as u32);
    let mut rows = origin.make(end, 0, origin.state);
    set(&mut rows, FLAG, 1u8);
    pay(&mut rows, &Price::of_end(end.max(1)));
    sum_to(&mut rows, sum::EACC, random.pick(&[0, end.wrapping_sub(mem).wrapping_sub(1)]));
    rows
}

/// The price of another count of words, parts of the square that are not its parts, or another rest shown to be below 32.
fn other_price(origin: &Origin, random: &mut Random) -> Vec<Row> {
    let (end1, end2) = origin.ends_in_bounds();
    let mut rows = origin.make(end1, end2, origin.state);
    let right = Price::of_end(end1.max(end2).max(1));
    let more_words = |more| Price::of_words(right.q1 + more, right.rest);
    let wrong = match random.below(8) {
        0 => more_words(1),
        1 => more_words(8),
        2 => more_words(1 << 19),
        3 => Price::of_words(right.q1.saturating_sub(1), right.rest + 32),
        4 => Price { q2: right.q2.wrapping_add(random.pick(&[1, u32::MAX, 1 << 23])), ..right },
        5 => Price { q2: right.q2.wrapping_sub(1), e: right.e + 2, ..right },
        6 => Price { e: 1 - right.e, ..right },
        _ => Price { low: random.byte(), ..right },
    };
    if rows[0].flag == 1 && !random.once_in(6) {
        pay(&mut rows, &wrong);
    } else if rows[0].flag == 1 {
        rows[1].aux1 = random.byte() | 224;
    }
    rows
}

/// Out of bounds by OOOB, but not by the end that is taken for it.
fn other_excess(origin: &Origin, random: &mut Random) -> Vec<Row> {
    let (near1, near2) = origin.ends_in_bounds();
    let [far1, far2] = [story::out_of_bounds(random), story::out_of_bounds(random)];
    let end1 = random.pick(&[near1.into(), far1]);
    let end2 = random.pick(&[near2.into(), far2]);
    let taken = random.pick(&[end1, end2]);
    let mut rows = make_cycle(origin.stamp, &Claim { end1: BOUND, ..origin.claim }, origin.state);
    set(&mut rows, END1, end1);
    set(&mut rows, END2, end2);
    sum_to(&mut rows, sum::ACC1, random.pick(&[Wide::ZERO, taken, taken.wrapping_sub(BOUND)]));
    rows
}

/// COMP or FLAG is neither 0 nor 1, and a sum does not hold that is demanded only where FLAG is 1.
fn no_bit(origin: &Origin, random: &mut Random) -> Vec<Row> {
    let (end1, end2) = origin.ends_in_bounds();
    let mut rows = origin.make(end1, end2, origin.state);
    set(&mut rows, random.pick(&[COMP, FLAG]), random.byte().max(2));
    set(&mut rows, random.pick(&[Q1BYTE, Q2BYTE]), random.byte());
    rows
}

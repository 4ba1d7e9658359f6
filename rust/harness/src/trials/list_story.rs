//! Random lists of lines that have the form. Most lines are right; some have a context, an opcode or a field that is
//! refused.

use reference::list::{Fields, Kind, kind_of};

use crate::trials::cast::{Cast, MOST_CYCLES, context};
use crate::trials::random::Random;

/// A list whose lines say anything has at most so many of them.
const MOST_WILD_LINES: usize = 8;
/// One line in so many of such a list is wrong.
const WILD_WRONG_ONCE_IN: usize = 5;
/// One line in so many of a list that runs like a program is wrong.
const WRONG_ONCE_IN: usize = 300;
/// An end is in bounds if it has at most so many bits.
pub const BOUND_BITS: usize = 24;

/// The text of a list.
pub fn tell(random: &mut Random) -> Vec<u8> {
    let text = if random.once_in(5) { wild(random) } else { program(random) };
    text.into_bytes()
}

/// A few lines that have nothing to do with each other.
fn wild(random: &mut Random) -> String {
    let lines = random.between(0, MOST_WILD_LINES);
    let line = |_| {
        let right = right_fields(random, any_fields);
        line(right, WILD_WRONG_ONCE_IN, random)
    };
    (0..lines).map(line).collect()
}

/// Lines that run like a program: contexts in turn or mixed, most instructions in bounds.
fn program(random: &mut Random) -> String {
    let cast = Cast::gather(random);
    // How far the list reaches: short of the bound it grows step by step.
    let bits = random.below(BOUND_BITS + 1);
    let lines = random.between(0, MOST_CYCLES);
    let line = |step| {
        let cn = cast.at(step, random);
        let right = right_fields(random, |random| near_fields(cn, bits, random));
        line(right, WRONG_ONCE_IN, random)
    };
    (0..lines).map(line).collect()
}

/// A right line of a context, mostly in bounds and of at most so many bits.
pub fn right_line(cn: u32, bits: usize, random: &mut Random) -> String {
    right_fields(random, |random| near_fields(cn, bits, random)).to_string()
}

/// The line that says right fields, or once in so many times others.
fn line(right: Fields, wrong_once_in: usize, random: &mut Random) -> String {
    let fields = if random.once_in(wrong_once_in) { spoilt(right, random) } else { right };
    fields.to_string()
}

/// Right fields with a fault, which some opcodes have a use for all the same.
fn spoilt(right: Fields, random: &mut Random) -> Fields {
    match random.below(7) {
        0 => Fields { cn: 0, ..right },
        1 => Fields { op: random.byte(), ..right },
        2 => Fields { len2: number(random), ..right },
        3 => Fields { at2: number(random), ..right },
        4 => Fields { len1: number(random), ..right },
        5 => Fields { at1: number(random), ..right },
        _ => Fields { cn: random.below(2) as u32, ..any_fields(random) },
    }
}

/// The fields of a listed opcode: what it has no use for is 0, all others are as `any` makes them.
fn right_fields(random: &mut Random, any: impl FnOnce(&mut Random) -> Fields) -> Fields {
    let listed: Vec<(u8, Kind)> = (0..=u8::MAX).filter_map(|op| Some((op, kind_of(op)?))).collect();
    let (op, kind) = random.pick(&listed);
    let any = Fields { op, ..any(random) };
    match kind {
        Kind::Nothing => Fields { cn: any.cn, op, ..Fields::default() },
        Kind::Fixed(_) => Fields { cn: any.cn, op, at1: any.at1, ..Fields::default() },
        Kind::OneRange => Fields { at2: 0, len2: 0, ..any },
        Kind::TwoRanges => any,
    }
}

fn any_fields(random: &mut Random) -> Fields {
    let cn = context(random);
    let op = random.byte();
    let [at1, len1, at2, len2] = [(); 4].map(|()| number(random));
    Fields { cn, op, at1, len1, at2, len2 }
}

/// Fields of a context that mostly stay in bounds.
fn near_fields(cn: u32, bits: usize, random: &mut Random) -> Fields {
    let [at1, at2] = [(); 2].map(|()| offset(random, bits));
    let [len1, len2] = [(); 2].map(|()| length(random));
    Fields { cn, op: 0, at1, len1, at2, len2 }
}

/// An offset or a length: nothing, at the edge of a half or of the whole, or of any count of bits.
fn number(random: &mut Random) -> u128 {
    let any = u128::from(random.next()) << 64 | u128::from(random.next());
    let little = random.below(40) as u128;
    match random.below(10) {
        0 | 1 => 0,
        2 => u128::MAX - little,
        3 => (1 << 64) + little,
        4 => (1 << 64) - 1 - little,
        5 => any << 64,
        6 => (1 << 127) + little,
        _ => any >> random.below(128),
    }
}

/// An offset: of at most so many bits, at a word's border, near the bound, or anything.
fn offset(random: &mut Random, bits: usize) -> u128 {
    let any = (random.next() & ((1 << bits) - 1)).into();
    match random.below(24) {
        0 => number(random),
        1 => (1 << BOUND_BITS) - random.below(40) as u128,
        2..6 => 0,
        6..12 => any & !31,
        _ => any,
    }
}

/// A length: nothing, a byte, about a word or more of them, or anything.
fn length(random: &mut Random) -> u128 {
    let some = random.below(70) as u128;
    match random.below(40) {
        0 => number(random),
        1..10 => 0,
        10..14 => 1,
        14..20 => 32,
        20..24 => (random.next() >> (40 + random.below(20))).into(),
        _ => some,
    }
}

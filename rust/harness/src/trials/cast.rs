//! The contexts of a random story, and which of them acts at each step.

use std::collections::BTreeSet;

use crate::trials::random::Random;

/// A story has at most so many cycles or lines.
pub const MOST_CYCLES: usize = 60;
/// It has at most so many contexts.
pub const MOST_CONTEXTS: usize = 30;
/// A context that acts in its turn goes on for at most so many steps.
const LONGEST_TURN: usize = 8;

/// How far from each other the contexts of a family are.
const DISTANCES: [u32; 8] = [1, 1, 1, 255, 256, 512, 1_024, 1_025];

/// Contexts, no two of which are the same.
pub struct Cast {
    contexts: Vec<u32>,
    /// Each goes on for so many steps, and then the next has its turn; without turns, any may act at any step.
    turn: Option<usize>,
}

impl Cast {
    /// From one context to as many as there may be.
    pub fn gather(random: &mut Random) -> Cast {
        let count = random.between(1, MOST_CONTEXTS);
        let contexts = if random.once_in(2) { strangers(count, random) } else { family(count, random) };
        let turn = random.once_in(2).then(|| random.between(1, LONGEST_TURN));
        Cast { contexts, turn }
    }

    /// The context that acts at a step.
    pub fn at(&self, step: usize, random: &mut Random) -> u32 {
        match self.turn {
            Some(steps) => self.contexts[step / steps % self.contexts.len()],
            None => random.pick(&self.contexts),
        }
    }
}

/// So many contexts that have nothing to do with each other.
fn strangers(count: usize, random: &mut Random) -> Vec<u32> {
    let mut contexts = BTreeSet::new();
    while contexts.len() < count {
        contexts.insert(context(random));
    }
    contexts.into_iter().collect()
}

/// So many contexts at one distance, neighbours or such that share their remainders: from 1 on, up to the largest,
/// around the middle of all, or anywhere.
pub fn family(count: usize, random: &mut Random) -> Vec<u32> {
    let distance = random.pick(&DISTANCES);
    let span = distance * (count as u32 - 1);
    let room = u32::MAX - span;
    let any = 1 + random.next() as u32 % room;
    let first = random.pick(&[1, room, (1 << 31) - span / 2, any]);
    (0..count as u32).map(|place| first + distance * place).collect()
}

/// A context's number: small ones, the largest, ones that share some of their bytes, and ones of any count of bits.
pub fn context(random: &mut Random) -> u32 {
    let any = random.next() as u32;
    let some_bits = u32::MAX >> random.below(32);
    let mask = random.pick(&[0x0f, 0xff00_0001, 0x0001_0001, some_bits, u32::MAX]);
    if random.once_in(10) { u32::MAX } else { (any & mask).max(1) }
}

//! Random right traces: some empty rows and cycles of both kinds, of several contexts, mixed.

use reference::{BOUND, Claim, Draft, Wide};

use crate::trials::cast::{Cast, MOST_CYCLES};
use crate::trials::random::Random;

const MOST_EMPTY_ROWS: usize = 5;

/// A right trace before it is made.
pub struct Story {
    empty_rows: usize,
    /// The claims of its instructions.
    pub claims: Vec<Claim>,
}

impl Story {
    /// A story of any length, in which no instruction is out of bounds, some are, or all.
    pub fn tell(random: &mut Random) -> Story {
        let cast = Cast::gather(random);
        let far_of_8 = random.pick(&[0, 1, 1, 2, 2, 4, 8]);
        let claims = (0..random.between(0, MOST_CYCLES)).map(|step| {
            let far = random.below(8) < far_of_8;
            claim(cast.at(step, random), far, random)
        });
        Story { claims: claims.collect(), empty_rows: 1 + random.below(MOST_EMPTY_ROWS) }
    }

    /// The trace.
    pub fn draft(&self) -> Draft {
        Draft::new(self.empty_rows, &self.claims)
    }
}

/// A claim that is in bounds or, by one end or by both, is not.
pub fn claim(cn: u32, far: bool, random: &mut Random) -> Claim {
    let (far1, far2) = if far { random.pick(&[(true, false), (false, true), (true, true)]) } else { (false, false) };
    let mut end = |far: bool| if far { out_of_bounds(random) } else { in_bounds(random) };
    let (end1, end2) = (end(far1), end(far2));
    let only_by_end2 = far2 && !far1;
    let end2 = match random.below(4) {
        0 if !only_by_end2 => Wide::ZERO,
        1 if !only_by_end2 => end1,
        _ => end2,
    };
    Claim { cn, end1, end2 }
}

/// An end below the bound: nothing, the largest, around a word's border, or one of any count of bits.
fn in_bounds(random: &mut Random) -> Wide {
    let any = random.next() as u32 >> (8 + random.below(24));
    let around_a_word = (any & !31).saturating_sub(1) + random.below(3) as u32;
    match random.below(12) {
        0 => Wide::ZERO,
        1 => BOUND.wrapping_sub(1u8.into()),
        2..5 => around_a_word.into(),
        _ => any.into(),
    }
}

/// An end at or past the bound: the bound and what is near it, the largest, or one of any count of bytes.
pub fn out_of_bounds(random: &mut Random) -> Wide {
    let near = BOUND.wrapping_add((random.below(3) as u32).into());
    let mut any = [0; Wide::BYTES];
    let zeros = random.below(Wide::BYTES - 4);
    any[zeros..].fill_with(|| random.byte());
    let any = Wide::from_be_bytes(any).max(BOUND);
    random.pick(&[near, any, any, Wide::MAX])
}

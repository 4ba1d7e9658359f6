//! Instructions as programs have them, one after another: memory that grows in steps and is touched again and again.

use reference::list::Fields;

use crate::random::Random;

/// The bytes of an EVM word.
const WORD: u64 = 32;
/// The offset at which compiled programs keep where their free memory starts.
const FREE_POINTER: u64 = 0x40;
/// The lengths of what a call is given: none, a selector, and a selector with one to three words.
const CALL_DATA: [u128; 5] = [0, 4, 36, 68, 100];
/// The opcodes, as often as they come: mostly loads and stores of a word, then a byte stored, a hash, two copies, a
/// log, a call and MSIZE.
const OPS: [u8; 16] = [0x51, 0x51, 0x51, 0x51, 0x51, 0x52, 0x52, 0x52, 0x52, 0x53, 0x20, 0x37, 0x3e, 0xa2, 0xf1, 0x59];

/// A context that runs a program.
pub struct Program {
    cn: u32,
    /// The bytes of memory in use.
    used: u64,
}

impl Program {
    /// A context that has touched nothing.
    pub fn new(cn: u32) -> Program {
        Program { cn, used: 0 }
    }

    /// The next instruction, in bounds.
    pub fn step(&mut self, random: &mut Random) -> Fields {
        let op = random.pick(&OPS);
        let fields = Fields { cn: self.cn, op, ..Fields::default() };
        if op == 0x59 {
            return fields;
        }
        let at1 = self.offset(random);
        match op {
            0x51..=0x53 => Fields { at1, ..fields },
            0xf1 => {
                Fields { at1, len1: random.pick(&CALL_DATA), at2: self.offset(random), len2: WORD.into(), ..fields }
            }
            _ => Fields { at1, len1: (WORD + random.below(8 * WORD)).into(), ..fields },
        }
    }

    /// Where an instruction touches memory: two times in eight at the end of what is in use, which then grows by up to
    /// 16 words; three times at the free pointer; else anywhere in it.
    fn offset(&mut self, random: &mut Random) -> u128 {
        let offset = match random.below(8) {
            0 | 1 => {
                let end = self.used;
                self.used += WORD * (1 + random.below(16));
                end
            }
            2..=4 => FREE_POINTER,
            _ => random.below(1 + self.used),
        };
        offset.into()
    }
}

/// An instruction out of bounds, by its first range, its second or both.
pub fn out_of_bounds(cn: u32, random: &mut Random) -> Fields {
    let far = (1 << 24) + u128::from(random.below(1 << 32));
    match random.below(3) {
        0 => Fields { cn, op: 0x20, at1: far, len1: u128::MAX, ..Fields::default() },
        1 => Fields { cn, op: 0xfa, at1: FREE_POINTER.into(), len1: WORD.into(), at2: far << 90, len2: 1 },
        _ => Fields { cn, op: 0xf4, at1: far, len1: 1, at2: far << 40, len2: far },
    }
}

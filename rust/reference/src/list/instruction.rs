//! The instruction: a context, an opcode and what it touches; and the claim that follows from it.

use super::form::{Fields, Stop, read_line};
use super::opcode::{Kind, kind_of};
use crate::claim::Claim;
use crate::wide::Wide;

/// The refusal of a line that is not of the form.
pub const NOT_OF_THE_FORM: u8 = 3;
/// The refusal of a context 0.
pub const CONTEXT_0: u8 = 4;
/// The refusal of an opcode that is not listed.
pub const NOT_LISTED: u8 = 5;
/// The refusal of a field that the opcode has no use for, and that is not 0.
pub const UNUSED_NOT_0: u8 = 6;

/// Bytes of memory, one after another.
#[derive(Clone, Copy, Debug, Default, PartialEq, Eq)]
pub struct Range {
    /// The offset of the first.
    pub at: u128,
    /// How many there are.
    pub len: u128,
}

impl Range {
    /// 0 if nothing is touched, else the greatest touched offset plus 1. The sum is below 2^129, so it does not wrap.
    pub fn end(&self) -> Wide {
        if self.len == 0 { Wide::ZERO } else { Wide::from(self.at).wrapping_add(Wide::from(self.len)) }
    }
}

/// What an instruction touches.
#[derive(Clone, Copy, Debug, PartialEq, Eq)]
pub enum Touched {
    /// No memory.
    Nothing,
    /// One range.
    One(Range),
    /// Two ranges.
    Two(Range, Range),
}

/// An instruction that a line may hold.
#[derive(Clone, Copy, Debug, PartialEq, Eq)]
pub struct Instruction {
    /// The context's number, not 0.
    pub cn: u32,
    /// The opcode, a listed one.
    pub op: u8,
    /// What it touches.
    pub touched: Touched,
}

/// What is wrong with a line.
#[derive(Clone, Copy, Debug, PartialEq, Eq)]
pub struct Fault {
    /// The number of its refusal.
    pub number: u8,
    /// Where it leaves the form, if it does, else 0.
    pub stop: usize,
}

impl Instruction {
    /// The instruction of the line that starts at a place, and the place after the line.
    #[inline]
    pub fn read(list: &[u8], at: usize) -> Result<(Instruction, usize), Fault> {
        let not_of_the_form = |Stop(stop)| Fault { number: NOT_OF_THE_FORM, stop };
        let (fields, next) = read_line(list, at).map_err(not_of_the_form)?;
        let instruction = Instruction::from_fields(&fields).map_err(|number| Fault { number, stop: 0 })?;
        Ok((instruction, next))
    }

    /// The instruction that the fields of a line say, or the number of their refusal.
    #[inline]
    pub fn from_fields(fields: &Fields) -> Result<Instruction, u8> {
        if fields.cn == 0 {
            return Err(CONTEXT_0);
        }
        let kind = kind_of(fields.op).ok_or(NOT_LISTED)?;
        if uses(kind).iter().zip(ranges(fields)).any(|(&used, number)| !used && number != 0) {
            return Err(UNUSED_NOT_0);
        }
        Ok(Instruction { cn: fields.cn, op: fields.op, touched: touched(kind, fields) })
    }

    /// The context and the ends that the instruction claims.
    #[inline]
    pub fn claim(&self) -> Claim {
        let (end1, end2) = match self.touched {
            Touched::Nothing => (Wide::ZERO, Wide::ZERO),
            Touched::One(range) => (range.end(), Wide::ZERO),
            Touched::Two(range1, range2) => (range1.end(), range2.end()),
        };
        Claim { cn: self.cn, end1, end2 }
    }
}

/// at1, len1, at2 and len2.
fn ranges(fields: &Fields) -> [u128; 4] {
    [fields.at1, fields.len1, fields.at2, fields.len2]
}

/// Which of at1, len1, at2 and len2 a kind has a use for.
fn uses(kind: Kind) -> [bool; 4] {
    match kind {
        Kind::Nothing => [false, false, false, false],
        Kind::Fixed(_) => [true, false, false, false],
        Kind::OneRange => [true, true, false, false],
        Kind::TwoRanges => [true, true, true, true],
    }
}

fn touched(kind: Kind, fields: &Fields) -> Touched {
    let range1 = Range { at: fields.at1, len: fields.len1 };
    let range2 = Range { at: fields.at2, len: fields.len2 };
    match kind {
        Kind::Nothing => Touched::Nothing,
        Kind::Fixed(bytes) => Touched::One(Range { at: fields.at1, len: bytes.into() }),
        Kind::OneRange => Touched::One(range1),
        Kind::TwoRanges => Touched::Two(range1, range2),
    }
}

#[cfg(test)]
mod tests {
    use super::*;

    #[test]
    fn a_range_ends_after_its_last_byte_unless_it_is_empty() {
        let end = |at, len| Range { at, len }.end();
        assert_eq!(end(0x2a0, 0x21), Wide::from(705u32));
        assert_eq!(end(u128::MAX, 0), Wide::ZERO);
        assert_eq!(end(u128::MAX, 1), Wide::power_of_two(128));
        assert_eq!(end(u128::MAX, u128::MAX), Wide::power_of_two(129).wrapping_sub(2u8.into()));
    }

    #[test]
    fn a_context_comes_before_an_opcode_and_that_before_what_is_unused() {
        let fields = Fields { len2: 1, ..Fields::default() };
        let with =
            |cn, op| Instruction::from_fields(&Fields { cn, op, ..fields }).map(|instruction| instruction.touched);
        assert_eq!(with(0, 0x5e), Err(CONTEXT_0));
        assert_eq!(with(0, 0x51), Err(CONTEXT_0));
        assert_eq!(with(1, 0x5e), Err(NOT_LISTED));
        assert_eq!(with(1, 0x51), Err(UNUSED_NOT_0));
        assert_eq!(with(1, 0xf1), Ok(Touched::Two(Range::default(), Range { at: 0, len: 1 })));
    }
}

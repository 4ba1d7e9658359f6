//! The opcodes that document 01 lists, by what an instruction with each of them touches.

/// What an instruction touches.
#[derive(Clone, Copy, Debug, PartialEq, Eq)]
pub enum Kind {
    /// Nothing.
    Nothing,
    /// So many bytes from at1 on.
    Fixed(u8),
    /// Range 1.
    OneRange,
    /// Range 1 and range 2.
    TwoRanges,
}

/// The kind of an opcode, if it is listed.
pub fn kind_of(op: u8) -> Option<Kind> {
    let kind = match op {
        // MSIZE
        0x59 => Kind::Nothing,
        // MLOAD, MSTORE
        0x51..=0x52 => Kind::Fixed(32),
        // MSTORE8
        0x53 => Kind::Fixed(1),
        // SHA3, CALLDATACOPY, CODECOPY, EXTCODECOPY, RETURNDATACOPY, LOG0 to LOG4
        0x20 | 0x37 | 0x39 | 0x3c | 0x3e | 0xa0..=0xa4 => Kind::OneRange,
        // CALL, CALLCODE, DELEGATECALL, STATICCALL
        0xf1..=0xf2 | 0xf4 | 0xfa => Kind::TwoRanges,
        // CREATE, RETURN, CREATE2, REVERT
        0xf0 | 0xf3 | 0xf5 | 0xfd => Kind::OneRange,
        _ => return None,
    };
    Some(kind)
}

#[cfg(test)]
mod tests {
    use super::*;

    #[test]
    fn twenty_two_opcodes_are_listed() {
        let count = |kind| (0..=u8::MAX).filter(|&op| kind_of(op) == Some(kind)).count();
        assert_eq!(count(Kind::Nothing), 1);
        assert_eq!(count(Kind::Fixed(32)), 2);
        assert_eq!(count(Kind::Fixed(1)), 1);
        assert_eq!(count(Kind::OneRange), 14);
        assert_eq!(count(Kind::TwoRanges), 4);
        assert_eq!((0..=u8::MAX).filter(|&op| kind_of(op).is_none()).count(), 234);
    }
}

//! A whole number of 17 bytes, the width of an end: more than a `u128` holds.

use std::fmt;

/// A number below 2^136, as its top byte and the 16 bytes under it. The order of the fields makes the derived
/// comparison that of the numbers.
#[derive(Clone, Copy, Debug, Default, PartialEq, Eq, PartialOrd, Ord, Hash)]
pub struct Wide {
    top: u8,
    low: u128,
}

impl Wide {
    /// How many bytes the number has.
    pub const BYTES: usize = 17;
    /// Nothing.
    pub const ZERO: Wide = Wide { top: 0, low: 0 };
    /// The largest such number, 2^136-1.
    pub const MAX: Wide = Wide { top: u8::MAX, low: u128::MAX };

    /// 2 to the `exponent`, which is below 136.
    pub const fn power_of_two(exponent: u32) -> Wide {
        if exponent < u128::BITS {
            Wide { top: 0, low: 1 << exponent }
        } else {
            Wide { top: 1 << (exponent - u128::BITS), low: 0 }
        }
    }

    /// The number that big-endian bytes write.
    pub fn from_be_bytes(bytes: [u8; Wide::BYTES]) -> Wide {
        let [top, low @ ..] = bytes;
        Wide { top, low: u128::from_be_bytes(low) }
    }

    /// The number in big-endian bytes.
    pub fn to_be_bytes(self) -> [u8; Wide::BYTES] {
        let mut bytes = [self.top; Wide::BYTES];
        bytes[1..].copy_from_slice(&self.low.to_be_bytes());
        bytes
    }

    /// The sum modulo 2^136.
    pub fn wrapping_add(self, other: Wide) -> Wide {
        let (low, carry) = self.low.overflowing_add(other.low);
        let top = self.top.wrapping_add(other.top);
        Wide { top: top.wrapping_add(u8::from(carry)), low }
    }

    /// The difference modulo 2^136.
    pub fn wrapping_sub(self, other: Wide) -> Wide {
        let (low, borrow) = self.low.overflowing_sub(other.low);
        let top = self.top.wrapping_sub(other.top);
        Wide { top: top.wrapping_sub(u8::from(borrow)), low }
    }

    /// The difference, unless it is below 0.
    pub fn checked_sub(self, other: Wide) -> Option<Wide> {
        (self >= other).then(|| self.wrapping_sub(other))
    }

    /// The number that its bytes write without the last `count` of them.
    #[inline]
    pub fn without_last_bytes(self, count: u8) -> Wide {
        let bits = 8 * u32::from(count);
        let carried = u128::from(self.top).checked_shl(u128::BITS.wrapping_sub(bits)).unwrap_or(0);
        let low = self.low.checked_shr(bits).unwrap_or(0);
        Wide { top: if count == 0 { self.top } else { 0 }, low: low | carried }
    }

    /// The lowest byte.
    #[inline]
    pub fn last_byte(self) -> u8 {
        self.low as u8
    }

    /// 256 times this number plus `byte`, unless that is 2^136 or more.
    pub fn checked_append(self, byte: u8) -> Option<Wide> {
        let [top, ..] = self.low.to_be_bytes();
        (self.top == 0).then(|| Wide { top, low: self.low << 8 | u128::from(byte) })
    }
}

/// The number in hex, without leading zeros.
impl fmt::Display for Wide {
    fn fmt(&self, out: &mut fmt::Formatter<'_>) -> fmt::Result {
        if self.top == 0 { write!(out, "{:x}", self.low) } else { write!(out, "{:x}{:032x}", self.top, self.low) }
    }
}

impl From<u8> for Wide {
    fn from(number: u8) -> Wide {
        Wide::from(u128::from(number))
    }
}

impl From<u32> for Wide {
    fn from(number: u32) -> Wide {
        Wide::from(u128::from(number))
    }
}

impl From<u128> for Wide {
    fn from(low: u128) -> Wide {
        Wide { top: 0, low }
    }
}

impl TryFrom<Wide> for u32 {
    type Error = std::num::TryFromIntError;

    fn try_from(number: Wide) -> Result<u32, Self::Error> {
        if number.top == 0 { u32::try_from(number.low) } else { u32::try_from(u128::MAX) }
    }
}

#[cfg(test)]
mod tests {
    use super::*;

    const ONE: Wide = Wide { top: 0, low: 1 };

    #[test]
    fn the_top_byte_counts_2_to_the_128() {
        let top = Wide::power_of_two(128);
        assert_eq!(Wide::from(u128::MAX).wrapping_add(ONE), top);
        assert_eq!(top.checked_sub(ONE), Some(Wide::from(u128::MAX)));
        assert!(top > Wide::from(u128::MAX));
        assert!(top < Wide::power_of_two(135));
    }

    #[test]
    fn sums_and_differences_wrap_at_2_to_the_136() {
        assert_eq!(Wide::MAX.wrapping_add(ONE), Wide::ZERO);
        assert_eq!(Wide::ZERO.wrapping_sub(ONE), Wide::MAX);
        let bound = Wide::power_of_two(24);
        assert_eq!(Wide::ZERO.wrapping_sub(bound).wrapping_add(bound), Wide::ZERO);
    }

    #[test]
    fn a_difference_below_0_is_none() {
        assert_eq!(Wide::ZERO.checked_sub(ONE), None);
        assert_eq!(Wide::from(7u32).checked_sub(Wide::from(8u32)), None);
        assert_eq!(Wide::from(u128::MAX).checked_sub(Wide::MAX), None);
        assert_eq!(Wide::MAX.checked_sub(Wide::MAX), Some(Wide::ZERO));
    }

    #[test]
    fn appending_bytes_writes_the_number_down() {
        let bytes: [u8; Wide::BYTES] = std::array::from_fn(|place| 0xf1 - place as u8);
        let written = bytes.iter().try_fold(Wide::ZERO, |sum, &byte| sum.checked_append(byte));
        assert_eq!(written, Some(Wide::from_be_bytes(bytes)));
        assert_eq!(Wide::power_of_two(128).checked_append(0), None);
        assert_eq!(Wide::power_of_two(127).checked_append(0), Some(Wide::power_of_two(135)));
    }

    #[test]
    fn the_last_bytes_fall_off() {
        let bytes: [u8; Wide::BYTES] = std::array::from_fn(|place| 0xf1 - place as u8);
        let number = Wide::from_be_bytes(bytes);
        for count in 0..=20 {
            let kept = bytes.len().saturating_sub(count);
            let left = bytes[..kept].iter().try_fold(Wide::ZERO, |sum, &byte| sum.checked_append(byte));
            assert_eq!(Some(number.without_last_bytes(count as u8)), left, "{count} bytes");
        }
        assert_eq!(number.last_byte(), 0xe1);
    }

    #[test]
    fn bytes_are_big_endian_and_come_back() {
        let number = Wide::power_of_two(128).wrapping_add(Wide::from(0x0203u32));
        let mut bytes = [0; Wide::BYTES];
        bytes[0] = 1;
        bytes[15] = 2;
        bytes[16] = 3;
        assert_eq!(number.to_be_bytes(), bytes);
        assert_eq!(Wide::from_be_bytes(bytes), number);
    }

    #[test]
    fn hex_digits_have_no_leading_zeros() {
        assert_eq!(Wide::ZERO.to_string(), "0");
        assert_eq!(Wide::from(0x2a0u32).to_string(), "2a0");
        assert_eq!(Wide::from(u128::MAX).to_string(), "f".repeat(32));
        assert_eq!(Wide::power_of_two(129).to_string(), format!("2{}", "0".repeat(32)));
        assert_eq!(Wide::MAX.to_string(), "f".repeat(34));
    }

    #[test]
    fn only_small_numbers_narrow_to_32_bits() {
        assert_eq!(u32::try_from(Wide::from(u32::MAX)), Ok(u32::MAX));
        assert!(u32::try_from(Wide::power_of_two(32)).is_err());
        assert!(u32::try_from(Wide::power_of_two(128)).is_err());
    }
}

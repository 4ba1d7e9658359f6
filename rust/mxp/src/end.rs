//! The end of what an instruction touches: a whole number of 136 bits, the width of its cell in a row.

use std::error::Error;
use std::fmt;

/// The greatest touched offset plus 1, or 0 if nothing is touched.
///
/// Ends are ordered as numbers and print in decimal and in hex. They are made from `u64`, from `u128` and from a row's
/// cell, and become a `u64` or a `u128` where they fit.
///
/// ```
/// use mxp::End;
///
/// let reach = End::from(705_u64);
/// assert!(reach < End::from(u128::MAX));
/// assert_eq!(format!("{reach} = {reach:#x}"), "705 = 0x2c1");
/// assert_eq!(u64::try_from(reach), Ok(705));
///
/// // The largest end of an instruction, of an offset and a length of 128 bits each, fits no u128.
/// let mut cell = [0xff; 17];
/// (cell[0], cell[16]) = (1, 0xfe);
/// let largest = End::from_be_bytes(cell);
/// assert_eq!(largest.to_string(), "680564733841876926926749214863536422910");
/// assert!(u128::try_from(largest).is_err());
/// ```
// The end is top · 2^128 + low; the order of the fields makes the derived order that of the numbers.
#[derive(Clone, Copy, Default, PartialEq, Eq, PartialOrd, Ord, Hash)]
pub struct End {
    top: u8,
    low: u128,
}

impl End {
    /// The least end that is out of bounds, 2^24.
    pub const BOUND: Self = Self { top: 0, low: 1 << 24 };

    /// The most decimal digits: 2^136 - 1 has so many.
    const MAX_DIGITS: usize = 41;

    /// The end top · 2^128 + hi · 2^64 + lo.
    pub(crate) fn new(top: u8, hi: u64, lo: u64) -> Self {
        Self { top, low: u128::from(hi) << 64 | u128::from(lo) }
    }

    /// The end that a row's cell END1 or END2 holds.
    pub fn from_be_bytes([top, low @ ..]: [u8; 17]) -> Self {
        Self { top, low: u128::from_be_bytes(low) }
    }

    /// The end as a row's cell END1 or END2.
    pub fn to_be_bytes(self) -> [u8; 17] {
        let mut cell = [self.top; 17];
        cell[1..].copy_from_slice(&self.low.to_be_bytes());
        cell
    }

    /// Whether the end is in bounds: below [`End::BOUND`].
    ///
    /// ```
    /// use mxp::End;
    ///
    /// assert!(End::from(16_777_215_u64).in_bounds());
    /// assert!(!End::from(16_777_216_u64).in_bounds());
    /// ```
    pub fn in_bounds(self) -> bool {
        self < Self::BOUND
    }
}

impl From<u64> for End {
    fn from(value: u64) -> Self {
        Self::from(u128::from(value))
    }
}

impl From<u128> for End {
    fn from(low: u128) -> Self {
        Self { top: 0, low }
    }
}

/// An end is too large for the number that it was to become.
#[derive(Clone, Copy, Debug, PartialEq, Eq)]
pub struct TryFromEndError(());

impl fmt::Display for TryFromEndError {
    fn fmt(&self, f: &mut fmt::Formatter<'_>) -> fmt::Result {
        f.write_str("the end is too large for the number it was to become")
    }
}

impl Error for TryFromEndError {}

impl TryFrom<End> for u128 {
    type Error = TryFromEndError;

    fn try_from(end: End) -> Result<Self, TryFromEndError> {
        if end.top == 0 { Ok(end.low) } else { Err(TryFromEndError(())) }
    }
}

impl TryFrom<End> for u64 {
    type Error = TryFromEndError;

    fn try_from(end: End) -> Result<Self, TryFromEndError> {
        u128::try_from(end)?.try_into().map_err(|_| TryFromEndError(()))
    }
}

impl fmt::Display for End {
    fn fmt(&self, f: &mut fmt::Formatter<'_>) -> fmt::Result {
        let mut digits = [0; Self::MAX_DIGITS];
        let mut first = digits.len();
        let mut rest = [self.top.into(), (self.low >> 64) as u64, self.low as u64];
        loop {
            let digit;
            (rest, digit) = divided_by_10(rest);
            first -= 1;
            digits[first] = b'0' + digit;
            if rest == [0; 3] {
                break;
            }
        }
        f.pad_integral(true, "", str::from_utf8(&digits[first..]).expect("decimal digits are text"))
    }
}

/// Divides a number of three 64-bit places, the highest first; answers the quotient and the rest.
fn divided_by_10(places: [u64; 3]) -> ([u64; 3], u8) {
    let mut rest = 0;
    let quotient = places.map(|place| {
        let dividend = rest << 64 | u128::from(place);
        rest = dividend % 10;
        (dividend / 10) as u64
    });
    (quotient, rest as u8)
}

impl fmt::LowerHex for End {
    fn fmt(&self, f: &mut fmt::Formatter<'_>) -> fmt::Result {
        if self.top == 0 {
            return fmt::LowerHex::fmt(&self.low, f);
        }
        f.pad_integral(true, "0x", &format!("{:x}{:032x}", self.top, self.low))
    }
}

impl fmt::Debug for End {
    fn fmt(&self, f: &mut fmt::Formatter<'_>) -> fmt::Result {
        write!(f, "End({self})")
    }
}

//! The form of a line: its text read into six fields, or the place at which it leaves the form.

use std::fmt;

/// cn has at most so many digits, as many as 32 bits need.
pub const CN_DIGITS: usize = 8;
/// Offsets and lengths have at most so many digits.
pub const RANGE_DIGITS: usize = 32;

/// What a line says, field by field.
#[derive(Clone, Copy, Debug, Default, PartialEq, Eq)]
pub struct Fields {
    /// The context's number.
    pub cn: u32,
    /// The opcode.
    pub op: u8,
    /// The offset of the first range.
    pub at1: u128,
    /// The length of the first range.
    pub len1: u128,
    /// The offset of the second range.
    pub at2: u128,
    /// The length of the second range.
    pub len2: u128,
}

/// The line that says the fields, with its newline.
impl fmt::Display for Fields {
    fn fmt(&self, out: &mut fmt::Formatter<'_>) -> fmt::Result {
        let Fields { cn, op, at1, len1, at2, len2 } = self;
        writeln!(out, "cn={cn:x} op={op:02x} at1={at1:x} len1={len1:x} at2={at2:x} len2={len2:x}")
    }
}

/// The place of the first character that no line of the form has there; where the text ends too early, its length.
#[derive(Clone, Copy, Debug, PartialEq, Eq)]
pub struct Stop(pub usize);

/// The fields of the line that starts at a place, and the place after its newline.
pub fn read_line(text: &[u8], at: usize) -> Result<(Fields, usize), Stop> {
    let mut reader = Reader { text, at };
    let cn = reader.word(b"cn=")?.number(CN_DIGITS)? as u32;
    let op = reader.word(b" op=")?.two_digits()?;
    let at1 = reader.word(b" at1=")?.number(RANGE_DIGITS)?;
    let len1 = reader.word(b" len1=")?.number(RANGE_DIGITS)?;
    let at2 = reader.word(b" at2=")?.number(RANGE_DIGITS)?;
    let len2 = reader.word(b" len2=")?.number(RANGE_DIGITS)?;
    reader.word(b"\n")?;
    Ok((Fields { cn, op, at1, len1, at2, len2 }, reader.at))
}

/// A text and the place up to which it was read.
struct Reader<'a> {
    text: &'a [u8],
    at: usize,
}

impl Reader<'_> {
    /// Reads on over a word, which must stand here as it is.
    fn word(&mut self, word: &[u8]) -> Result<&mut Self, Stop> {
        for letter in word {
            if self.text.get(self.at) != Some(letter) {
                return Err(Stop(self.at));
            }
            self.at += 1;
        }
        Ok(self)
    }

    /// Reads one digit, which must stand here.
    fn digit(&mut self) -> Result<u8, Stop> {
        let character = self.text.get(self.at).copied();
        let digit = character.and_then(value_of).ok_or(Stop(self.at))?;
        self.at += 1;
        Ok(digit)
    }

    fn two_digits(&mut self) -> Result<u8, Stop> {
        let high = self.digit()?;
        let low = self.digit()?;
        Ok(high << 4 | low)
    }

    /// Reads a number of one to `most` digits. After a leading 0, or after `most` digits, it has ended: a digit that
    /// follows is left for the next word, which does not start with one.
    fn number(&mut self, most: usize) -> Result<u128, Stop> {
        let mut number = u128::from(self.digit()?);
        if number == 0 {
            return Ok(0);
        }
        for _ in 1..most {
            match self.digit() {
                Ok(digit) => number = number << 4 | u128::from(digit),
                Err(_) => break,
            }
        }
        Ok(number)
    }
}

/// The value of a lower-case hex digit.
fn value_of(character: u8) -> Option<u8> {
    match character {
        b'0'..=b'9' => Some(character - b'0'),
        b'a'..=b'f' => Some(character - b'a' + 10),
        _ => None,
    }
}

#[cfg(test)]
mod tests {
    use super::*;

    const LINE: &[u8] = b"cn=1 op=52 at1=2a0 len1=21 at2=0 len2=f\n";

    #[test]
    fn a_line_is_read_from_where_it_starts() {
        let fields = Fields { cn: 1, op: 0x52, at1: 0x2a0, len1: 0x21, at2: 0, len2: 0xf };
        assert_eq!(read_line(LINE, 0), Ok((fields, 40)));
        assert_eq!(read_line(&[b"xyz", LINE, b"x"].concat(), 3), Ok((fields, 43)));
    }

    #[test]
    fn a_text_that_ends_early_stops_at_its_end() {
        for kept in 0..LINE.len() {
            assert_eq!(read_line(&LINE[..kept], 0), Err(Stop(kept)));
        }
    }

    #[test]
    fn digits_are_lower_case_hex() {
        let digits: Vec<u8> = (0..=u8::MAX).filter(|&character| value_of(character).is_some()).collect();
        assert_eq!(digits, b"0123456789abcdef");
        let values: Vec<Option<u8>> = digits.iter().map(|&digit| value_of(digit)).collect();
        assert_eq!(values, (0..16).map(Some).collect::<Vec<_>>());
    }

    #[test]
    fn numbers_end_after_a_leading_0_and_after_their_most_digits() {
        let stop = |text: &str| read_line(text.as_bytes(), 0).expect_err(text).0;
        assert_eq!(stop("cn=01 op=52"), 4);
        assert_eq!(stop("cn=123456789 op=52"), 11);
        assert_eq!(stop("cn=12345678 op=5 "), 16);
        assert_eq!(stop("cn=1 op=523 at1=0"), 10);
        assert_eq!(stop("cn=1 op=52 at1="), 15);
        assert_eq!(stop(&format!("cn=1 op=52 at1={}", "f".repeat(33))), 15 + 32);
    }
}

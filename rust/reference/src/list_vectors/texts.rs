//! The texts that the vectors are made of: lines from the values of their fields, and edits of them by places.

use crate::list::form::RANGE_DIGITS;

/// The names of the fields in order.
pub const NAMES: [&str; 6] = ["cn", "op", "at1", "len1", "at2", "len2"];
/// Where cn stands among the fields.
pub const CN: usize = 0;
/// Where op stands among the fields.
pub const OP: usize = 1;
/// Where at1 stands among the fields.
pub const AT1: usize = 2;
/// Where len1 stands among the fields.
pub const LEN1: usize = 3;
/// Where at2 stands among the fields.
pub const AT2: usize = 4;
/// Where len2 stands among the fields.
pub const LEN2: usize = 5;

/// 2^64.
pub const TWO_TO_64: &str = "10000000000000000";
/// 2^128-1, the largest offset and the largest length.
pub const LARGEST: &str = "ffffffffffffffffffffffffffffffff";

/// The input of `account` in document 01.
pub const SAMPLE: &str = "\
cn=1 op=52 at1=0 len1=0 at2=0 len2=0
cn=2 op=53 at1=0 len1=0 at2=0 len2=0
cn=1 op=20 at1=2a0 len1=21 at2=0 len2=0
cn=1 op=59 at1=0 len1=0 at2=0 len2=0
cn=2 op=f1 at1=20 len1=0 at2=3f len2=1
cn=2 op=51 at1=ffffe0 len1=0 at2=0 len2=0
";

/// A right line of 37 characters; the tests of the form go by the places of its characters.
pub const PLAIN: &str = "cn=1 op=52 at1=0 len1=0 at2=0 len2=0\n";
/// The places of the spaces in it.
pub const SPACES: [usize; 5] = [4, 10, 16, 23, 29];
/// The place of its newline.
pub const NEWLINE: usize = 36;

/// A line for each refusal, with the place in it at which it leaves the form.
pub const FAULTS: [(u8, &str, usize); 4] = [
    (3, "cn=1 op=52 at1=0 len1=0 at2=0 len2=0 \n", 36),
    (4, "cn=0 op=52 at1=0 len1=0 at2=0 len2=0\n", 0),
    (5, "cn=1 op=5e at1=0 len1=0 at2=0 len2=0\n", 0),
    (6, "cn=1 op=59 at1=0 len1=0 at2=0 len2=1\n", 0),
];

/// The line with these values.
pub fn line(values: [&str; 6]) -> String {
    let fields = NAMES.iter().zip(values).map(|(name, value)| format!("{name}={value}"));
    fields.collect::<Vec<_>>().join(" ") + "\n"
}

/// Right lines of so many bytes in all, at least 37: copies of `PLAIN`, and a last line with a longer number. That is
/// right as long as the number has at most 32 digits, so the rest must be less than 32.
pub fn lines_of(bytes: usize) -> String {
    let longer = bytes % PLAIN.len();
    assert!(longer < RANGE_DIGITS, "no last line makes up {bytes} bytes");
    let last = PLAIN.replace("at1=0", &format!("at1=1{}", "0".repeat(longer)));
    PLAIN.repeat(bytes / PLAIN.len() - 1) + &last
}

/// The line with these values but for one.
pub fn line_with<'a>(mut values: [&'a str; 6], field: usize, value: &'a str) -> String {
    values[field] = value;
    line(values)
}

/// The place at which a field's name starts, in the line with these values.
pub fn name_place(values: [&str; 6], field: usize) -> usize {
    let before = NAMES.iter().zip(values).take(field);
    before.map(|(name, value)| format!("{name}={value} ").len()).sum()
}

/// The place at which a field's value starts, in the line with these values.
pub fn value_place(values: [&str; 6], field: usize) -> usize {
    name_place(values, field) + NAMES[field].len() + 1
}

/// A text with other bytes in the place of one.
pub fn replaced(text: &str, at: usize, bytes: &[u8]) -> Vec<u8> {
    [&text.as_bytes()[..at], bytes, &text.as_bytes()[at + 1..]].concat()
}

/// A text with bytes put in before a place.
pub fn inserted(text: &str, at: usize, bytes: &[u8]) -> Vec<u8> {
    [&text.as_bytes()[..at], bytes, &text.as_bytes()[at..]].concat()
}

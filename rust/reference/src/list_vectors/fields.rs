//! Vectors for the fields of a line, each in its turn: its least and its largest value, and what is no value of it.

use super::texts::{AT1, AT2, CN, LARGEST, LEN1, LEN2, NAMES, OP, line, line_with, name_place, value_place};
use super::{Vector, reads, refused, stops};

/// A CALL, which has a use for every field.
const CALL: [&str; 6] = ["7", "f1", "20", "40", "60", "8"];

pub fn vectors() -> Vec<Vector> {
    [
        zero(),
        one(),
        largest(),
        all_digits(),
        one_digit_too_many(),
        leading_zero(),
        upper_case(),
        empty(),
        missing(),
        count_of_digits_in_op(),
    ]
    .concat()
}

/// The vector of the CALL with another value in a field, which is read.
fn read_with(what: &str, field: usize, value: &str, claim: (u32, &str, &str)) -> Vector {
    reads(format!("field_{}_{what}", NAMES[field]), line_with(CALL, field, value), &[claim])
}

/// The vector of the CALL with another value in a field, which is refused, but not for its form.
fn refused_with(what: &str, field: usize, value: &str, number: u8) -> Vector {
    refused(format!("field_{}_{what}", NAMES[field]), line_with(CALL, field, value), number, 1)
}

/// The vector of the CALL with another value in a field, which leaves the form at a character of that value, or after
/// it.
fn stops_with(what: &str, field: usize, value: &str, character: usize) -> Vector {
    let name = format!("field_{}_{what}", NAMES[field]);
    stops(name, line_with(CALL, field, value), 1, value_place(CALL, field) + character)
}

fn zero() -> Vec<Vector> {
    vec![
        refused_with("0", CN, "0", 4),
        refused_with("0", OP, "00", 5),
        read_with("0", AT1, "0", (7, "40", "68")),
        read_with("0", LEN1, "0", (7, "0", "68")),
        read_with("0", AT2, "0", (7, "60", "8")),
        read_with("0", LEN2, "0", (7, "60", "0")),
    ]
}

fn one() -> Vec<Vector> {
    vec![
        read_with("1", CN, "1", (1, "60", "68")),
        refused_with("1", OP, "01", 5),
        read_with("1", AT1, "1", (7, "41", "68")),
        read_with("1", LEN1, "1", (7, "21", "68")),
        read_with("1", AT2, "1", (7, "60", "9")),
        read_with("1", LEN2, "1", (7, "60", "61")),
    ]
}

fn largest() -> Vec<Vector> {
    vec![
        read_with("largest", CN, "ffffffff", (0xffff_ffff, "60", "68")),
        refused_with("largest", OP, "ff", 5),
        read_with("largest", AT1, LARGEST, (7, "10000000000000000000000000000003f", "68")),
        read_with("largest", LEN1, LARGEST, (7, "10000000000000000000000000000001f", "68")),
        read_with("largest", AT2, LARGEST, (7, "60", "100000000000000000000000000000007")),
        read_with("largest", LEN2, LARGEST, (7, "60", "10000000000000000000000000000005f")),
    ]
}

/// Numbers with digits that all differ, so that a lost or misplaced one shows.
fn all_digits() -> Vec<Vector> {
    let up = "123456789abcdef0fedcba9876543210";
    let down = "fedcba98765432100123456789abcdef";
    let claim = (0x89ab_cdef, "11111111111111100ffffffffffffffff", "11111111111111100ffffffffffffffff");
    vec![
        read_with("of_all_digits", CN, "12345678", (0x1234_5678, "60", "68")),
        reads("fields_of_all_digits", line(["89abcdef", "f1", up, down, down, up]), &[claim]),
        read_with("of_31_digits", AT1, &up[..31], (7, "123456789abcdef0fedcba987654361", "68")),
        read_with("of_17_digits", LEN1, &up[..17], (7, "123456789abcdef2f", "68")),
        read_with("of_16_digits", AT2, &up[..16], (7, "60", "123456789abcdef8")),
        read_with("of_15_digits", LEN2, &up[..15], (7, "60", "123456789abce4f")),
    ]
}

/// The first digit that is too many is where the line stops.
fn one_digit_too_many() -> Vec<Vector> {
    let most = [("12345678", CN), ("f1", OP), (LARGEST, AT1), (LARGEST, LEN1), (LARGEST, AT2), (LARGEST, LEN2)];
    let vector = |&(value, field): &(&str, usize)| {
        let longer = |more: &str| format!("{value}{more}");
        [
            stops_with("one_digit_too_many", field, &longer("0"), value.len()),
            stops_with("two_digits_too_many", field, &longer("ff"), value.len()),
        ]
    };
    most.iter().flat_map(vector).collect()
}

/// After a leading zero no digit can stand; for op, which may start with one, a third digit cannot.
fn leading_zero() -> Vec<Vector> {
    let mut vectors = vec![stops_with("leading_zero", OP, "0f1", 2)];
    for field in [CN, AT1, LEN1, AT2, LEN2] {
        vectors.push(stops_with("leading_zero", field, "01", 1));
        vectors.push(stops_with("zero_twice", field, "00", 1));
        vectors.push(stops_with("leading_zeros_up_to_8_digits", field, "00000001", 1));
    }
    vectors
}

fn upper_case() -> Vec<Vector> {
    let mut vectors = Vec::new();
    for field in CN..=LEN2 {
        vectors.push(stops_with("upper_case", field, "F1", 0));
        vectors.push(stops_with("upper_case_in_its_second_digit", field, "1A", 1));
    }
    vectors
}

fn empty() -> Vec<Vector> {
    (CN..=LEN2).map(|field| stops_with("empty", field, "", 0)).collect()
}

/// A field that is gone with its name: the line stops where the name would start, and without the last field where the
/// space before it would be.
fn missing() -> Vec<Vector> {
    let vector = |field: usize| {
        let start = name_place(CALL, field);
        let end = value_place(CALL, field) + CALL[field].len();
        let whole = line(CALL);
        // The first field goes with the space after it, every other with the one before.
        let gone = if field == CN { start..end + 1 } else { start - 1..end };
        let text = [&whole[..gone.start], &whole[gone.end..]].concat();
        let stop = if field == LEN2 { start - 1 } else { start };
        stops(format!("field_{}_missing", NAMES[field]), text, 1, stop)
    };
    (CN..=LEN2).map(vector).collect()
}

/// op has two digits and no other count of them.
fn count_of_digits_in_op() -> Vec<Vector> {
    vec![
        stops_with("one_digit", OP, "5", 1),
        stops_with("three_digits", OP, "523", 2),
        stops_with("no_digit_in_the_second_place", OP, "5g", 1),
        stops_with("no_digit_in_the_first_place", OP, "g5", 0),
    ]
}

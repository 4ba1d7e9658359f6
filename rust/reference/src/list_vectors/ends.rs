//! Vectors for the ends: carries from one half of a number to the next, empty ranges, and the bytes of a word.

use super::texts::{LARGEST, TWO_TO_64, line};
use super::{Vector, reads};

/// 2^64-1, a full low half.
const LOW_FULL: &str = "ffffffffffffffff";
/// 2^127.
const TWO_TO_127: &str = "80000000000000000000000000000000";
/// 2^128, an end that needs its seventeenth byte.
const TWO_TO_128: &str = "100000000000000000000000000000000";
/// 2^128-2.
const NEXT_TO_LARGEST: &str = "fffffffffffffffffffffffffffffffe";

pub fn vectors() -> Vec<Vector> {
    [sums(), empty_ranges(), empty_ranges_of_calls(), words_and_bytes()].concat()
}

/// Offsets and lengths with their sums.
const SUMS: [(&str, &str, &str, &str); 18] = [
    ("full_low_half", "fffffffffffffffe", "1", LOW_FULL),
    ("carry_out_of_the_low_half", LOW_FULL, "1", TWO_TO_64),
    ("carry_out_of_the_low_half_by_the_length", "1", LOW_FULL, TWO_TO_64),
    ("full_low_halves", LOW_FULL, LOW_FULL, "1fffffffffffffffe"),
    ("carry_into_a_high_half", "1ffffffffffffffff", "1", "20000000000000000"),
    ("high_half_in_the_offset", TWO_TO_64, "1", "10000000000000001"),
    ("high_half_in_the_length", "1", TWO_TO_64, "10000000000000001"),
    ("high_halves", TWO_TO_64, TWO_TO_64, "20000000000000000"),
    ("full_high_half", NEXT_TO_LARGEST, "1", LARGEST),
    ("carry_through_both_halves", LARGEST, "1", TWO_TO_128),
    ("carry_through_both_halves_by_the_length", "1", LARGEST, TWO_TO_128),
    ("carry_out_of_the_high_half", TWO_TO_127, TWO_TO_127, TWO_TO_128),
    (
        "carry_out_of_the_high_half_alone",
        "80000000000000000000000000000001",
        "80000000000000000000000000000002",
        "100000000000000000000000000000003",
    ),
    (
        "carry_out_of_each_half",
        "8000000000000000ffffffffffffffff",
        "80000000000000000000000000000002",
        "100000000000000010000000000000001",
    ),
    (
        "high_half_full_by_a_carry",
        "7fffffffffffffffffffffffffffffff",
        "80000000000000000000000000000000",
        "ffffffffffffffffffffffffffffffff",
    ),
    (
        "all_digits",
        "123456789abcdef0fedcba9876543210",
        "fedcba9876543210123456789abcdef0",
        "111111111111111011111111111111100",
    ),
    ("next_to_the_largest", LARGEST, NEXT_TO_LARGEST, "1fffffffffffffffffffffffffffffffd"),
    ("largest", LARGEST, LARGEST, "1fffffffffffffffffffffffffffffffe"),
];

/// Each sum as the range of a SHA3, and as either range of a CALL.
fn sums() -> Vec<Vector> {
    let vectors = |&(name, at, len, end): &(&str, &str, &str, &str)| {
        [
            reads(format!("end_{name}"), line(["1", "20", at, len, "0", "0"]), &[(1, end, "0")]),
            reads(format!("end_{name}_in_range_1"), line(["1", "f1", at, len, "7", "2"]), &[(1, end, "9")]),
            reads(format!("end_{name}_in_range_2"), line(["1", "f1", "7", "2", at, len]), &[(1, "9", end)]),
        ]
    };
    SUMS.iter().flat_map(vectors).collect()
}

/// A range of length 0 touches nothing, however great its offset is.
fn empty_ranges() -> Vec<Vector> {
    let ops = ["20", "37", "39", "3c", "3e", "a0", "a1", "a2", "a3", "a4", "f0", "f3", "f5", "fd"];
    let vector = |op| reads(format!("empty_range_of_{op}"), line(["1", op, LARGEST, "0", "0", "0"]), &[(1, "0", "0")]);
    let mut vectors = ops.map(vector).to_vec();
    for (name, at) in [("1", "1"), ("2_to_24", "1000000"), ("2_to_64", TWO_TO_64), ("2_to_127", TWO_TO_127)] {
        let text = line(["1", "20", at, "0", "0", "0"]);
        vectors.push(reads(format!("empty_range_at_{name}"), text, &[(1, "0", "0")]));
    }
    vectors
}

fn empty_ranges_of_calls() -> Vec<Vector> {
    let vectors = |op: &str| {
        let range1 = line(["1", op, LARGEST, "0", "20", "3"]);
        let range2 = line(["1", op, "20", "3", LARGEST, "0"]);
        let both = line(["1", op, LARGEST, "0", LARGEST, "0"]);
        let far = line(["1", op, LARGEST, "0", LARGEST, "1"]);
        [
            reads(format!("empty_range_1_of_{op}"), range1, &[(1, "0", "23")]),
            reads(format!("empty_range_2_of_{op}"), range2, &[(1, "23", "0")]),
            reads(format!("empty_ranges_of_{op}"), both, &[(1, "0", "0")]),
            reads(format!("empty_range_1_beside_a_far_one_of_{op}"), far, &[(1, "0", TWO_TO_128)]),
        ]
    };
    ["f1", "f2", "f4", "fa"].into_iter().flat_map(vectors).collect()
}

/// What MLOAD, MSTORE and MSTORE8 touch from an offset on.
fn words_and_bytes() -> Vec<Vector> {
    let words = [
        ("0", "0", "20"),
        ("full_low_half", "ffffffffffffffdf", LOW_FULL),
        ("carry_out_of_the_low_half", "ffffffffffffffe0", TWO_TO_64),
        ("full_high_half", "ffffffffffffffffffffffffffffffdf", LARGEST),
        ("carry_out_of_the_high_half", "ffffffffffffffffffffffffffffffe0", TWO_TO_128),
        ("largest", LARGEST, "10000000000000000000000000000001f"),
    ];
    let bytes = [
        ("0", "0", "1"),
        ("full_low_half", "fffffffffffffffe", LOW_FULL),
        ("carry_out_of_the_low_half", LOW_FULL, TWO_TO_64),
        ("full_high_half", NEXT_TO_LARGEST, LARGEST),
        ("largest", LARGEST, TWO_TO_128),
    ];
    let mut vectors = Vec::new();
    for (op, ends) in [("51", &words[..]), ("52", &words), ("53", &bytes)] {
        for &(name, at, end) in ends {
            let text = line(["1", op, at, "0", "0", "0"]);
            vectors.push(reads(format!("end_of_{op}_{name}"), text, &[(1, end, "0")]));
        }
    }
    vectors
}

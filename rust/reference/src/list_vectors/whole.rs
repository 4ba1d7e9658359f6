//! Vectors that are whole lists: none, the sample of document 01, and lines of the largest size.

use super::texts::{LARGEST, SAMPLE, line};
use super::{Vector, reads, stops};

/// The claims of the lines of the sample.
const SAMPLE_CLAIMS: [(u32, &str, &str); 6] =
    [(1, "20", "0"), (2, "1", "0"), (1, "2c1", "0"), (1, "0", "0"), (2, "0", "40"), (2, "1000000", "0")];

/// The largest end, 2^129-2.
const LARGEST_END: &str = "1fffffffffffffffffffffffffffffffe";

pub fn vectors() -> Vec<Vector> {
    let largest = line(["ffffffff", "fa", LARGEST, LARGEST, LARGEST, LARGEST]);
    let smallest = line(["1", "59", "0", "0", "0", "0"]);
    let claim = (u32::MAX, LARGEST_END, LARGEST_END);
    let between = [largest.as_str(), &smallest, &largest].concat();
    vec![
        reads("list_of_none", "", &[]),
        reads("sample_of_the_document", SAMPLE, &SAMPLE_CLAIMS),
        reads("sample_twice", SAMPLE.repeat(2), &[SAMPLE_CLAIMS, SAMPLE_CLAIMS].concat()),
        reads("line_of_the_largest_size", largest.as_str(), &[claim]),
        stops("line_of_the_largest_size_without_newline", largest.trim_end(), 1, 167),
        stops("line_of_the_largest_size_and_a_digit", largest.replace('\n', "f\n"), 1, 167),
        stops("line_of_the_largest_size_twice_in_one", largest.trim_end().repeat(2), 1, 167),
        reads("lines_of_the_largest_size", largest.repeat(9), &[claim; 9]),
        reads("line_of_the_smallest_size_between_two_largest", between, &[claim, (1, "0", "0"), claim]),
    ]
}

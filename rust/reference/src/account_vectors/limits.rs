//! Vectors at the limits of `account`: the rows that it has room for, and the bytes that it reads.

use super::{Meant, Vector, charged, refused};
use crate::list_vectors::texts::{LARGEST, PLAIN, line, lines_of};
use crate::program::MAX_LIST_INPUT;

pub fn vectors() -> Vec<Vector> {
    [growing(), mixed(), as_many_bytes_as_are_read(), more_bytes_than_are_read(), one_byte_repeated()].concat()
}

/// Each instruction of one context takes one word more: 191 of them and an empty row are 574 rows.
fn growing() -> Vec<Vector> {
    let list = |lines: u32| -> String {
        (0..lines).map(|step| line(["1", "52", &format!("{:x}", 32 * step), "0", "0", "0"])).collect()
    };
    let meant = |words: u32| (1, 0, 32 * words, words, 3 + words * words / 512 - (words - 1) * (words - 1) / 512);
    vec![
        charged("rows_571_in_bounds", list(190), &(1..=190).map(meant).collect::<Vec<_>>()),
        charged("rows_574_in_bounds", list(191), &(1..=191).map(meant).collect::<Vec<_>>()),
        refused("rows_577_in_bounds", list(192), 8, 0),
    ]
}

/// So many lines in bounds among so many out of bounds, with what is meant for them.
fn mixed_lines(in_bounds: usize, out_of_bounds: usize) -> (String, Vec<Meant>) {
    let far = line(["1", "20", LARGEST, LARGEST, "0", "0"]);
    let near = line(["1", "59", "0", "0", "0", "0"]);
    let mut list = String::new();
    let mut meant = Vec::new();
    let all = in_bounds + out_of_bounds;
    for step in 0..all {
        // The lines out of bounds are spread evenly, the last line is one of them.
        let is_far = (step + 1) * out_of_bounds / all > step * out_of_bounds / all;
        list += if is_far { &far } else { &near };
        meant.push((1, u8::from(is_far), 0, 0, 0));
    }
    (list, meant)
}

/// Lines of both kinds that fill 573, 574 and 575 rows, and others about as many.
fn mixed() -> Vec<Vector> {
    let fits = |rows, in_bounds, out_of_bounds| {
        let (list, meant) = mixed_lines(in_bounds, out_of_bounds);
        charged(format!("rows_{rows}_with_{out_of_bounds}_out_of_bounds"), list, &meant)
    };
    let too_many = |rows, in_bounds, out_of_bounds| {
        let (list, _) = mixed_lines(in_bounds, out_of_bounds);
        refused(format!("rows_{rows}_with_{out_of_bounds}_out_of_bounds"), list, 8, 0)
    };
    vec![
        fits(573, 185, 1),
        fits(574, 174, 3),
        fits(574, 21, 30),
        fits(574, 4, 33),
        fits(562, 0, 33),
        too_many(575, 180, 2),
        too_many(577, 5, 33),
        too_many(579, 0, 34),
        too_many(591, 4, 34),
    ]
}

/// 65,536 bytes, in 1,771 lines: more than there is room for, which counts only if every line is right.
fn as_many_bytes_as_are_read() -> Vec<Vector> {
    let most = lines_of(MAX_LIST_INPUT);
    let with = |from, to| most.replacen(from, to, 1);
    let cut = &lines_of(MAX_LIST_INPUT + 1)[..MAX_LIST_INPUT];
    let head = most.len() - PLAIN.len() - MAX_LIST_INPUT % PLAIN.len();
    let unused_in_the_last = format!("{}{}", &most[..head], most[head..].replace("len2=0", "len2=1"));
    vec![
        refused("bytes_65536", most.as_str(), 8, 0),
        refused("bytes_65536_cut_in_the_last_line", cut, 3, 1_771),
        refused("bytes_65536_bad_last_line", unused_in_the_last, 6, 1_771),
        refused("bytes_65536_bad_first_line", with("cn=1", "cn=0"), 4, 1),
        refused("bytes_65535_cut_in_the_last_line", &most[..MAX_LIST_INPUT - 1], 3, 1_771),
    ]
}

/// One byte more and many more, also where line 1 is bad.
fn more_bytes_than_are_read() -> Vec<Vector> {
    let one_more = lines_of(MAX_LIST_INPUT + 1);
    let most_and_a_byte = lines_of(MAX_LIST_INPUT) + "c";
    vec![
        refused("bytes_65537", one_more.as_str(), 1, 0),
        refused("bytes_65537_bad_first_line", one_more.replacen("op=52", "op=5e", 1), 1, 0),
        refused("bytes_65537_bad_last_byte", most_and_a_byte, 1, 0),
        refused("bytes_131073", lines_of(2 * MAX_LIST_INPUT + 1), 1, 0),
    ]
}

fn one_byte_repeated() -> Vec<Vector> {
    let lengths = [(1, 3, 1), (37, 3, 1), (MAX_LIST_INPUT, 3, 1), (MAX_LIST_INPUT + 1, 1, 0)];
    let vector =
        |(length, number, line)| refused(format!("bytes_{length}_of_ones"), vec![u8::MAX; length], number, line);
    let mut vectors = lengths.map(vector).to_vec();
    vectors.push(refused("bytes_37_of_zeros", [0; 37], 3, 1));
    vectors.push(refused("bytes_37_of_newlines", [b'\n'; 37], 3, 1));
    vectors
}

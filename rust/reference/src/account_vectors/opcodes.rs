//! Vectors for the opcodes: each that is listed, in a context of its own and in one for all; and ranges of length 0.

use super::{Meant, Vector, charged, refused};
use crate::list_vectors::texts::{LARGEST, line};

/// Opcodes of one range.
const ONE_RANGE: [&str; 14] = ["20", "37", "39", "3c", "3e", "a0", "a1", "a2", "a3", "a4", "f0", "f3", "f5", "fd"];
/// Opcodes of two ranges.
pub const CALLS: [&str; 4] = ["f1", "f2", "f4", "fa"];

pub fn vectors() -> Vec<Vector> {
    let mut vectors = vec![every_opcode(), every_opcode_in_one_context()];
    vectors.extend(empty_ranges());
    vectors.extend(not_listed());
    vectors
}

/// An opcode with its offsets and lengths, and the size, the words and the gas of it in a new context.
type Listed = ([&'static str; 5], (u32, u32, u32));

/// Each listed opcode. Worked out by hand: 4,692 bytes are 147 words, 441 + 42 gas; 4,661 are 146, 438 + 41; 5,941 are
/// 186, 558 + 67; 47,580 are 1,487, 4,461 + 4,318.
fn listed() -> Vec<Listed> {
    let mut listed = vec![
        (["59", "0", "0", "0", "0"], (0, 0, 0)),
        (["51", "1234", "0", "0", "0"], (4_692, 147, 483)),
        (["52", "1234", "0", "0", "0"], (4_692, 147, 483)),
        (["53", "1234", "0", "0", "0"], (4_661, 146, 479)),
    ];
    listed.extend(ONE_RANGE.map(|op| ([op, "1234", "501", "0", "0"], (5_941, 186, 625))));
    listed.extend(CALLS.map(|op| ([op, "1234", "501", "abcd", "e0f"], (47_580, 1_487, 8_779))));
    listed
}

fn line_of(cn: u32, [op, at1, len1, at2, len2]: [&str; 5]) -> String {
    line([&format!("{cn:x}"), op, at1, len1, at2, len2])
}

fn every_opcode() -> Vector {
    let of_contexts = || (1..).zip(listed());
    let list: String = of_contexts().map(|(cn, (values, _))| line_of(cn, values)).collect();
    let meant: Vec<Meant> = of_contexts().map(|(cn, (_, (size, words, gas)))| (cn, 0, size, words, gas)).collect();
    charged("every_opcode", list, &meant)
}

/// The first of each kind pays what is new, all others nothing.
fn every_opcode_in_one_context() -> Vector {
    let list: String = listed().into_iter().map(|(values, _)| line_of(1, values)).collect();
    let mut meant = vec![(1, 0, 0, 0, 0), (1, 0, 4_692, 147, 483), (1, 0, 4_692, 147, 0), (1, 0, 4_692, 147, 0)];
    meant.push((1, 0, 5_941, 186, 625 - 483));
    meant.extend([(1, 0, 5_941, 186, 0); 13]);
    meant.push((1, 0, 47_580, 1_487, 8_779 - 625));
    meant.extend([(1, 0, 47_580, 1_487, 0); 3]);
    charged("every_opcode_in_one_context", list, &meant)
}

/// A range of length 0 touches nothing, however great its offset is.
fn empty_ranges() -> Vec<Vector> {
    let of_call = |op: &str| {
        let ranges = [
            [LARGEST, "0", "20", "3"],
            [LARGEST, "0", LARGEST, "0"],
            ["40", "1", LARGEST, "0"],
            ["1000000", "0", "ffffff", "0"],
            [LARGEST, "0", LARGEST, "1"],
        ];
        let list: String = ranges.map(|[at1, len1, at2, len2]| line(["1", op, at1, len1, at2, len2])).concat();
        let grown = (1, 0, 65, 3, 3);
        let kept = (1, 0, 65, 3, 0);
        charged(
            format!("empty_ranges_of_{op}"),
            list,
            &[(1, 0, 35, 2, 6), (1, 0, 35, 2, 0), grown, kept, (1, 1, 65, 3, 0)],
        )
    };
    let list: String = ONE_RANGE.map(|op| line(["1", op, LARGEST, "0", "0", "0"])).concat();
    let mut vectors = CALLS.map(of_call).to_vec();
    vectors.push(charged("empty_range_of_each_opcode_of_one", list, &[(1, 0, 0, 0, 0); 14]));
    vectors
}

fn not_listed() -> Vec<Vector> {
    let vector = |op| refused(format!("opcode_{op}_not_listed"), line(["1", op, "0", "0", "0", "0"]), 5, 1);
    ["00", "1f", "50", "54", "5e", "a5", "f6", "ff"].map(vector).to_vec()
}

//! Vectors for the ends: at the edges of words and of the bound, by either range, first and after others.

use super::opcodes::CALLS;
use super::{Meant, Vector, charged};
use crate::list_vectors::texts::{AT1, AT2, CN, LARGEST, LEN1, LEN2, NAMES, PLAIN, line, line_with};

pub fn vectors() -> Vec<Vector> {
    let mut vectors: Vec<Vector> = TABLE.iter().flat_map(by_each_range).collect();
    vectors.extend(TABLE.iter().map(equal_ends));
    vectors.extend(TABLE.iter().map(after_33_bytes));
    vectors.extend(largest_fields());
    vectors.push(nearly_equal_ends());
    vectors.push(first_byte_stored());
    vectors
}

/// An end in bounds with its words and what they cost in all.
struct InBounds {
    size: u32,
    words: u32,
    cost: u32,
}

/// A name, an offset and a length whose sum is an end, and what that end is if it is in bounds.
type End = (&'static str, &'static str, &'static str, Option<InBounds>);

const fn reached(size: u32, words: u32, cost: u32) -> Option<InBounds> {
    Some(InBounds { size, words, cost })
}

/// The ends, with costs as document 01's table has them.
const TABLE: [End; 17] = [
    ("0", "7", "0", reached(0, 0, 0)),
    ("1", "0", "1", reached(1, 1, 3)),
    ("31", "1e", "1", reached(31, 1, 3)),
    ("32", "0", "20", reached(32, 1, 3)),
    ("33", "1", "20", reached(33, 2, 6)),
    ("704", "2a0", "20", reached(704, 22, 66)),
    ("705", "2a0", "21", reached(705, 23, 70)),
    ("1024", "1", "3ff", reached(1_024, 32, 98)),
    ("2_to_24_less_1", "fffffe", "1", reached(16_777_215, 524_288, 538_443_776)),
    ("2_to_24_less_1_by_its_length", "0", "ffffff", reached(16_777_215, 524_288, 538_443_776)),
    ("2_to_24", "ffffff", "1", None),
    ("2_to_24_by_its_length", "1", "ffffff", None),
    ("2_to_32", "ffffffff", "1", None),
    ("2_to_64", "ffffffffffffffff", "1", None),
    ("2_to_64_and_1", "ffffffffffffffff", "2", None),
    ("2_to_128", LARGEST, "1", None),
    ("2_to_129_less_2", LARGEST, LARGEST, None),
];

/// What is meant for an instruction with an end, in context 1 that has reached 0 bytes.
fn first(end: &Option<InBounds>) -> Meant {
    match *end {
        Some(InBounds { size, words, cost }) => (1, 0, size, words, cost),
        None => (1, 1, 0, 0, 0),
    }
}

/// What is meant for an instruction that pays nothing after another.
fn kept((cn, _, size, words, _): Meant, oob: u8) -> Meant {
    (cn, oob, size, words, 0)
}

/// The end by a SHA3, by the first and by the second range of a call; then MSIZE, and the same once more.
fn by_each_range((name, at, len, end): &End) -> [Vector; 3] {
    let meant = first(end);
    let (_, oob, ..) = meant;
    let meant = [meant, kept(meant, 0), kept(meant, oob)];
    let msize = line(["1", "59", "0", "0", "0", "0"]);
    let vector = |range: &str, values: [&str; 6]| {
        let list = [line(values), msize.clone(), line(values)].concat();
        charged(format!("end_{name}_by_{range}"), list, &meant)
    };
    [
        vector("a_lone_range", ["1", "20", at, len, "0", "0"]),
        vector("range_1", ["1", "f1", at, len, "0", "0"]),
        vector("range_2", ["1", "f4", "0", "0", at, len]),
    ]
}

/// Both ends the same, by each of the calls.
fn equal_ends((name, at, len, end): &End) -> Vector {
    let list: String = CALLS.map(|op| line(["1", op, at, len, at, len])).concat();
    let meant = first(end);
    let again = kept(meant, meant.1);
    charged(format!("equal_ends_{name}"), list, &[meant, again, again, again])
}

/// The end after 33 bytes, which have cost 6: by a range alone, in another context, and below what a call's other
/// range has reached.
fn after_33_bytes((name, at, len, end): &End) -> Vector {
    let list = [
        line(["1", "37", "0", "21", "0", "0"]),
        line(["1", "3e", at, len, "0", "0"]),
        line(["2", "fa", "1", "20", at, len]),
        line(["2", "f2", at, len, "0", "20"]),
    ];
    let after = |cn| match *end {
        Some(InBounds { size, words, cost }) if size > 33 => (cn, 0, size, words, cost),
        Some(_) => (cn, 0, 33, 2, 6),
        None => (cn, 1, 0, 0, 0),
    };
    let (_, oob, size, words, cost) = after(1);
    let second = if oob == 1 { (1, 1, 33, 2, 0) } else { (1, 0, size, words, cost - 6) };
    charged(
        format!("end_{name}_after_33_bytes"),
        list.concat(),
        &[(1, 0, 33, 2, 6), second, after(2), kept(after(2), oob)],
    )
}

/// Each field of a call at its largest, and all of them. Its ends are 96 and 104, and 4 words cost 12.
fn largest_fields() -> Vec<Vector> {
    const CALL: [&str; 6] = ["7", "f1", "20", "40", "60", "8"];
    let far = |field| charged(format!("largest_{}", NAMES[field]), line_with(CALL, field, LARGEST), &[(7, 1, 0, 0, 0)]);
    let mut vectors = [AT1, LEN1, AT2, LEN2].map(far).to_vec();
    let cn = line_with(CALL, CN, "ffffffff");
    let all = line(["ffffffff", "fa", LARGEST, LARGEST, LARGEST, LARGEST]);
    let list = [all.as_str(), &cn, &all].concat();
    vectors.push(charged("largest_cn", cn, &[(u32::MAX, 0, 104, 4, 12)]));
    vectors.push(charged("largest_fields", all, &[(u32::MAX, 1, 0, 0, 0)]));
    let around = [(u32::MAX, 1, 0, 0, 0), (u32::MAX, 0, 104, 4, 12), (u32::MAX, 1, 104, 4, 0)];
    vectors.push(charged("largest_fields_around_a_call", list, &around));
    vectors
}

/// Ends that differ by one byte, either of them the greater, on both sides of a word's border.
fn nearly_equal_ends() -> Vector {
    let list = [
        line(["1", "f1", "0", "20", "0", "1f"]),
        line(["1", "f1", "0", "20", "1", "20"]),
        line(["1", "f1", "1", "21", "1", "20"]),
        line(["1", "f1", "1", "3f", "2", "3f"]),
    ];
    charged(
        "nearly_equal_ends",
        list.concat(),
        &[(1, 0, 32, 1, 3), (1, 0, 33, 2, 3), (1, 0, 34, 2, 0), (1, 0, 65, 3, 3)],
    )
}

/// A first MSTORE8 at 0 pays for its word, in each context; the bytes after it are in the same word.
fn first_byte_stored() -> Vector {
    let byte = |cn, at| line([cn, "53", at, "0", "0", "0"]);
    let list = [byte("1", "0"), byte("1", "1"), byte("2", "0"), byte("1", "20"), PLAIN.into()];
    let meant = [(1, 0, 1, 1, 3), (1, 0, 2, 1, 0), (2, 0, 1, 1, 3), (1, 0, 33, 2, 3), (1, 0, 33, 2, 0)];
    charged("first_byte_stored", list.concat(), &meant)
}

//! Vectors for fields that the opcode has no use for: each of them not 0, alone and with the others.

use super::texts::{AT1, AT2, LARGEST, LEN1, LEN2, NAMES, TWO_TO_64, line, line_with};
use super::{Vector, refused};

/// The fields that an opcode has no use for.
type Unused = (&'static str, &'static [usize]);

/// Every opcode that leaves a field unused.
const UNUSED: [Unused; 18] = [
    ("59", &[AT1, LEN1, AT2, LEN2]),
    ("51", &[LEN1, AT2, LEN2]),
    ("52", &[LEN1, AT2, LEN2]),
    ("53", &[LEN1, AT2, LEN2]),
    ("20", &[AT2, LEN2]),
    ("37", &[AT2, LEN2]),
    ("39", &[AT2, LEN2]),
    ("3c", &[AT2, LEN2]),
    ("3e", &[AT2, LEN2]),
    ("a0", &[AT2, LEN2]),
    ("a1", &[AT2, LEN2]),
    ("a2", &[AT2, LEN2]),
    ("a3", &[AT2, LEN2]),
    ("a4", &[AT2, LEN2]),
    ("f0", &[AT2, LEN2]),
    ("f3", &[AT2, LEN2]),
    ("f5", &[AT2, LEN2]),
    ("fd", &[AT2, LEN2]),
];

pub fn vectors() -> Vec<Vector> {
    let mut vectors: Vec<Vector> = UNUSED.iter().flat_map(alone).collect();
    vectors.extend(UNUSED.iter().map(together));
    vectors
}

/// Each unused field at 1, at its largest, and with its high half alone not 0.
fn alone(&(op, unused): &Unused) -> Vec<Vector> {
    let mut vectors = Vec::new();
    for &field in unused {
        for (what, value) in [("1", "1"), ("largest", LARGEST), ("2_to_64", TWO_TO_64)] {
            let name = format!("unused_{}_of_{op}_{what}", NAMES[field]);
            vectors.push(refused(name, line_with(used(op), field, value), 6, 1));
        }
    }
    vectors
}

/// All unused fields of an opcode at 1.
fn together(&(op, unused): &Unused) -> Vector {
    let mut values = used(op);
    for &field in unused {
        values[field] = "1";
    }
    refused(format!("unused_fields_of_{op}"), line(values), 6, 1)
}

/// The values of a right line, not 0 where the opcode has a use for them.
fn used(op: &str) -> [&str; 6] {
    match op {
        "59" => ["3", op, "0", "0", "0", "0"],
        "51" | "52" | "53" => ["3", op, "8", "0", "0", "0"],
        _ => ["3", op, "8", "9", "0", "0"],
    }
}

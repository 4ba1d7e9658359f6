//! Vectors with several faults: within a line the lowest number counts, and an earlier line before a later one.

use super::texts::{FAULTS, PLAIN};
use super::{Intended, Vector, reads, refused, stops};

pub fn vectors() -> Vec<Vector> {
    [in_a_line(), line_by_line(), later_lines()].concat()
}

/// The form of the whole line comes first, then the context, the opcode and the unused fields.
fn in_a_line() -> Vec<Vector> {
    vec![
        stops("order_form_before_context", "cn=0 op=zz at1=0 len1=0 at2=0 len2=0\n", 1, 8),
        stops("order_form_before_opcode", "cn=1 op=5e at1=0 len1=0 at2=0 len2=00\n", 1, 36),
        stops("order_form_before_unused_field", "cn=1 op=59 at1=1 len1=1 at2=1 len2=1 \n", 1, 36),
        stops("order_form_before_all", "cn=0 op=5e at1=1 len1=1 at2=1 len2=1", 1, 36),
        stops("order_first_of_two_stops", "cn=1 op=52 at1=00 len1=0 at2=0 len2=A\n", 1, 16),
        // The c of the next line is a digit of op.
        stops("order_stop_before_a_right_line", format!("cn=1 op=5{PLAIN}"), 1, 10),
        refused("order_context_before_opcode", "cn=0 op=5e at1=0 len1=0 at2=0 len2=0\n", 4, 1),
        refused("order_context_before_unused_field", "cn=0 op=59 at1=1 len1=0 at2=0 len2=0\n", 4, 1),
        refused("order_context_before_both", "cn=0 op=00 at1=1 len1=1 at2=1 len2=1\n", 4, 1),
        refused("order_context_alone", "cn=0 op=f1 at1=1 len1=1 at2=1 len2=1\n", 4, 1),
        refused("order_opcode_before_fields", "cn=1 op=5e at1=1 len1=1 at2=1 len2=1\n", 5, 1),
        refused("order_unused_field_alone", "cn=1 op=fd at1=1 len1=1 at2=0 len2=1\n", 6, 1),
    ]
}

/// Each refusal in line 1, before each in line 2.
fn line_by_line() -> Vec<Vector> {
    let mut vectors = Vec::new();
    for (number, first, stop) in FAULTS {
        for (other, second, _) in FAULTS {
            let name = format!("order_{number}_in_line_1_before_{other}_in_line_2");
            let intended = Intended::Refused { number, line: 1, stop };
            vectors.push(Vector { name, text: [first, second].concat().into(), intended });
        }
    }
    vectors
}

/// Each refusal after some right lines.
fn later_lines() -> Vec<Vector> {
    let mut vectors = vec![reads("order_256_right_lines", PLAIN.repeat(256), &[(1, "20", "0"); 256])];
    for before in [1, 2, 9, 256] {
        for (number, text, stop) in FAULTS {
            let line = before as u64 + 1;
            let stop = if number == 3 { before * PLAIN.len() + stop } else { 0 };
            let name = format!("order_{number}_in_line_{line}");
            let intended = Intended::Refused { number, line, stop };
            vectors.push(Vector { name, text: (PLAIN.repeat(before) + text).into(), intended });
        }
    }
    vectors
}

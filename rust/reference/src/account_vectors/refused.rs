//! Vectors with lines that are refused: which line, and which refusal where there are several.

use super::{Vector, charged, refused};
use crate::list_vectors::SAMPLE;
use crate::list_vectors::texts::{FAULTS, PLAIN, inserted, replaced};

pub fn vectors() -> Vec<Vector> {
    [by_line(), two_lines(), in_one_line(), before_the_room_is_short(), not_of_the_form(), cut()].concat()
}

/// Each refusal alone, in the first, a middle and the last of seven lines.
fn by_line() -> Vec<Vector> {
    let mut vectors = Vec::new();
    for (number, fault, _) in FAULTS {
        vectors.push(refused(format!("refused_{number}_alone"), fault, number, 1));
        for (before, after) in [(0, 6), (3, 3), (6, 0)] {
            let list = [&PLAIN.repeat(before), fault, &PLAIN.repeat(after)].concat();
            let line = before + 1;
            vectors.push(refused(format!("refused_{number}_in_line_{line}_of_7"), list, number, line as u64));
        }
    }
    vectors
}

/// Each refusal in line 2, before each in line 3.
fn two_lines() -> Vec<Vector> {
    let mut vectors = Vec::new();
    for (number, first, _) in FAULTS {
        for (other, second, _) in FAULTS {
            let name = format!("refused_{number}_in_line_2_before_{other}_in_line_3");
            vectors.push(refused(name, [PLAIN, first, second, PLAIN].concat(), number, 2));
        }
    }
    vectors
}

/// Several faults in one line: the lowest number counts.
fn in_one_line() -> Vec<Vector> {
    let second = |line: &str| [PLAIN, line].concat();
    vec![
        refused("refused_form_before_context", second("cn=0 op=52 at1=00 len1=0 at2=0 len2=0\n"), 3, 2),
        refused("refused_form_before_all", second("cn=0 op=5e at1=1 len1=1 at2=1 len2=1"), 3, 2),
        refused("refused_context_before_opcode", second("cn=0 op=5e at1=0 len1=0 at2=0 len2=0\n"), 4, 2),
        refused("refused_context_before_unused_field", second("cn=0 op=59 at1=1 len1=0 at2=0 len2=0\n"), 4, 2),
        refused("refused_opcode_before_unused_field", second("cn=1 op=5e at1=1 len1=1 at2=1 len2=1\n"), 5, 2),
    ]
}

/// Each refusal after more lines than there is room for.
fn before_the_room_is_short() -> Vec<Vector> {
    let vector = |(number, fault, _): (u8, &str, usize)| {
        refused(format!("refused_{number}_in_line_193"), PLAIN.repeat(192) + fault, number, 193)
    };
    FAULTS.map(vector).to_vec()
}

fn not_of_the_form() -> Vec<Vector> {
    let line_3 = |at: usize| 2 * PLAIN.len() + at;
    vec![
        refused("form_carriage_returns", SAMPLE.replace('\n', "\r\n"), 3, 1),
        refused("form_carriage_return_in_line_6", SAMPLE.trim_end().to_owned() + "\r\n", 3, 6),
        refused("form_byte_ff_in_line_3", replaced(SAMPLE, line_3(15), &[u8::MAX]), 3, 3),
        refused("form_byte_ff_before_line_3", inserted(SAMPLE, line_3(0), &[u8::MAX]), 3, 3),
        refused("form_byte_00_in_line_3", replaced(SAMPLE, line_3(0), &[0]), 3, 3),
        refused("form_byte_ff_after_the_list", inserted(SAMPLE, SAMPLE.len(), &[u8::MAX]), 3, 7),
        refused("form_upper_case_in_line_3", SAMPLE.replace("2a0", "2A0"), 3, 3),
        refused("form_leading_zero_in_line_3", SAMPLE.replace("2a0", "02a0"), 3, 3),
        refused("form_blank_line_first", format!("\n{SAMPLE}"), 3, 1),
        refused("form_blank_line_last", format!("{SAMPLE}\n"), 3, 7),
        refused("form_space_at_the_end_of_line_1", inserted(SAMPLE, PLAIN.len() - 1, b" "), 3, 1),
        refused("form_byte_order_mark", format!("\u{feff}{SAMPLE}"), 3, 1),
        refused("form_newline_alone", "\n", 3, 1),
    ]
}

/// The sample cut in the middle of a line, before a newline and between lines. Three of its lines are 114 bytes.
fn cut() -> Vec<Vector> {
    let cut = |kept: usize, line| refused(format!("cut_to_{kept}_bytes"), &SAMPLE[..kept], 3, line);
    vec![
        cut(1, 1),
        cut(36, 1),
        cut(38, 2),
        cut(100, 3),
        cut(113, 3),
        cut(SAMPLE.len() - 1, 6),
        charged("cut_to_114_bytes", &SAMPLE[..114], &[(1, 0, 32, 1, 3), (2, 0, 1, 1, 3), (1, 0, 705, 23, 67)]),
    ]
}

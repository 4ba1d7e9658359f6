//! Vectors that leave the form: spaces, names, digits, line ends and foreign bytes. The places are those of the
//! characters of `PLAIN`.

use super::texts::{NEWLINE, PLAIN, SPACES, inserted, replaced};
use super::{Vector, reads, stops};

pub fn vectors() -> Vec<Vector> {
    [spaces(), line_ends(), no_newline(), blank_lines(), foreign_bytes(), names(), no_digits(), spellings()].concat()
}

/// The vector of `PLAIN` with other bytes in the place of one, at which it stops.
fn replacing(name: String, at: usize, bytes: &[u8]) -> Vector {
    stops(name, replaced(PLAIN, at, bytes), 1, at)
}

fn spaces() -> Vec<Vector> {
    let mut vectors = Vec::new();
    for at in SPACES {
        vectors.push(stops(format!("form_double_space_at_{at}"), inserted(PLAIN, at, b" "), 1, at + 1));
        vectors.push(stops(format!("form_tab_after_space_at_{at}"), inserted(PLAIN, at + 1, b"\t"), 1, at + 1));
        vectors.push(replacing(format!("form_tab_at_{at}"), at, b"\t"));
        vectors.push(replacing(format!("form_newline_at_{at}"), at, b"\n"));
        vectors.push(replacing(format!("form_comma_at_{at}"), at, b","));
        vectors.push(replacing(format!("form_no_space_at_{at}"), at, b""));
    }
    vectors.push(stops("form_space_before_the_line", format!(" {PLAIN}"), 1, 0));
    vectors.push(stops("form_space_after_a_name", inserted(PLAIN, 2, b" "), 1, 2));
    vectors.push(stops("form_space_before_a_number", inserted(PLAIN, 3, b" "), 1, 3));
    vectors
}

fn line_ends() -> Vec<Vector> {
    let before = [
        ("carriage_return", "\r"),
        ("space", " "),
        ("tab", "\t"),
        ("semicolon", ";"),
        ("form_feed", "\u{c}"),
        ("field_more", " at3=0"),
    ];
    let vector = |(name, more): (&str, &str)| {
        stops(format!("form_{name}_before_the_newline"), inserted(PLAIN, NEWLINE, more.as_bytes()), 1, NEWLINE)
    };
    let mut vectors = before.map(vector).to_vec();
    vectors.push(replacing("form_carriage_return_for_the_newline".into(), NEWLINE, b"\r"));
    vectors.push(replacing("form_line_separator_for_the_newline".into(), NEWLINE, "\u{2028}".as_bytes()));
    vectors.push(stops("form_carriage_return_after_the_newline", format!("{PLAIN}\r{PLAIN}"), 2, 37));
    vectors
}

fn no_newline() -> Vec<Vector> {
    let cut = &PLAIN[..NEWLINE];
    vec![
        stops("form_no_newline", cut, 1, 36),
        stops("form_no_last_newline", format!("{PLAIN}{cut}"), 2, 73),
        stops("form_two_lines_joined", format!("{cut}{PLAIN}"), 1, 36),
        stops("form_two_lines_joined_by_a_space", format!("{cut} {PLAIN}"), 1, 36),
        stops("form_one_character_after_the_last_newline", format!("{PLAIN}c"), 2, 38),
        stops("form_one_wrong_character_after_the_last_newline", format!("{PLAIN}x"), 2, 37),
        stops("form_one_character", "c", 1, 1),
        stops("form_one_wrong_character", "n", 1, 0),
    ]
}

fn blank_lines() -> Vec<Vector> {
    vec![
        stops("form_blank_line_first", format!("\n{PLAIN}"), 1, 0),
        stops("form_blank_line_in_the_middle", format!("{PLAIN}\n{PLAIN}"), 2, 37),
        stops("form_blank_line_last", format!("{PLAIN}\n"), 2, 37),
        stops("form_blank_line_alone", "\n", 1, 0),
        stops("form_blank_lines_alone", "\n\n\n", 1, 0),
        stops("form_line_of_a_space", format!("{PLAIN} \n"), 2, 37),
        stops("form_remark", format!("{PLAIN}# nothing\n"), 2, 37),
        reads("form_no_blank_line", PLAIN.repeat(2), &[(1, "20", "0"), (1, "20", "0")]),
    ]
}

/// The least and the largest byte in the place of each kind of character.
fn foreign_bytes() -> Vec<Vector> {
    let places = [
        ("first_byte", 0),
        ("name_of_cn", 1),
        ("equals_sign", 2),
        ("digit_of_cn", 3),
        ("space", 4),
        ("name_of_op", 6),
        ("first_digit_of_op", 8),
        ("second_digit_of_op", 9),
        ("name_of_at1", 13),
        ("digit_of_at1", 15),
        ("name_of_len2", 33),
        ("digit_of_len2", 35),
        ("newline", NEWLINE),
    ];
    let mut vectors = Vec::new();
    for (what, byte) in [("00", 0), ("ff", u8::MAX)] {
        let in_line = |(place, at)| replacing(format!("form_byte_{what}_for_{place}"), at, &[byte]);
        let second = [PLAIN.as_bytes(), &replaced(PLAIN, 0, &[byte])].concat();
        let after = [PLAIN.as_bytes(), &[byte]].concat();
        vectors.extend(places.map(in_line));
        vectors.push(stops(format!("form_byte_{what}_first_in_line_2"), second, 2, 37));
        vectors.push(stops(format!("form_byte_{what}_after_the_list"), after, 2, 37));
        vectors.push(stops(format!("form_byte_{what}_alone"), [byte], 1, 0));
    }
    vectors.push(stops("form_byte_order_mark", format!("\u{feff}{PLAIN}"), 1, 0));
    vectors
}

fn names() -> Vec<Vector> {
    vec![
        stops("form_name_cn_in_upper_case", PLAIN.replace("cn", "CN"), 1, 0),
        stops("form_name_op_in_upper_case", PLAIN.replace("op", "oP"), 1, 6),
        stops("form_name_at2_for_at1", PLAIN.replace("at1", "at2"), 1, 13),
        stops("form_name_at1_for_at2", PLAIN.replace("at2", "at1"), 1, 26),
        stops("form_name_len2_for_len1", PLAIN.replace("len1", "len2"), 1, 20),
        stops("form_name_len1_for_len2", PLAIN.replace("len2", "len1"), 1, 33),
        stops("form_name_at_without_number", PLAIN.replace("at1", "at"), 1, 13),
        stops("form_name_at11", PLAIN.replace("at1", "at11"), 1, 14),
        stops("form_colon_for_equals_sign", PLAIN.replace("op=", "op:"), 1, 7),
        stops("form_two_equals_signs", PLAIN.replace("op=", "op=="), 1, 8),
        stops("form_op_before_cn", "op=52 cn=1 at1=0 len1=0 at2=0 len2=0\n", 1, 0),
        stops("form_range_2_before_range_1", "cn=1 op=52 at2=0 len2=0 at1=0 len1=0\n", 1, 13),
        stops("form_lengths_before_offsets", "cn=1 op=52 len1=0 at1=0 len2=0 at2=0\n", 1, 11),
    ]
}

/// The characters next to the digits, in the place of a digit.
fn no_digits() -> Vec<Vector> {
    let characters = [
        ("slash", b'/'),
        ("colon", b':'),
        ("at_sign", b'@'),
        ("upper_a", b'A'),
        ("upper_f", b'F'),
        ("upper_g", b'G'),
        ("backquote", b'`'),
        ("g", b'g'),
        ("b0", 0xb0),
        ("e1", 0xe1),
    ];
    let places = [("cn", 3), ("first_of_op", 8), ("second_of_op", 9), ("at1", 15), ("len2", 35)];
    let mut vectors = Vec::new();
    for (what, character) in characters {
        let vector = |(place, at)| replacing(format!("form_{what}_for_digit_of_{place}"), at, &[character]);
        vectors.extend(places.map(vector));
    }
    vectors
}

/// Numbers as they are written elsewhere.
fn spellings() -> Vec<Vector> {
    let at1 = |value: &str| PLAIN.replace("at1=0", &format!("at1={value}"));
    vec![
        stops("form_number_after_0x", at1("0x20"), 1, 16),
        stops("form_number_with_minus", at1("-1"), 1, 15),
        stops("form_number_with_plus", at1("+1"), 1, 15),
        stops("form_number_with_underscore", at1("1_0"), 1, 16),
        stops("form_number_with_h", at1("20h"), 1, 17),
        stops("form_number_with_point", at1("2.0"), 1, 16),
        stops("form_number_quoted", at1("\"20\""), 1, 15),
        stops("form_cn_after_0x", PLAIN.replace("cn=1", "cn=0x1"), 1, 4),
    ]
}

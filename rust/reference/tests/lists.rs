//! The list reader put to other ways of saying what a line is: the sample of document 01, lines printed anew from what
//! was read, and the place of a stop by its definition.

use reference::list::form::{Fields, Stop, read_line};
use reference::list::{Answer, Range, kind_of, next_line, walk};
use reference::list_vectors::SAMPLE;
use reference::{Claim, Wide};

/// A line of the form, to complete the start of another with.
const RIGHT: &str = "cn=1 op=11 at1=1 len1=1 at2=1 len2=1\n";

/// Whether a text is one line of the form: its values are numbers, and printing them gives the text back.
fn is_line(text: &[u8]) -> bool {
    let Some(text) = std::str::from_utf8(text).ok() else { return false };
    let values: Option<Vec<u128>> = text.trim_end().split(' ').map(value).collect();
    match values.as_deref() {
        Some(&[cn, op, at1, len1, at2, len2]) => match (u32::try_from(cn), u8::try_from(op)) {
            (Ok(cn), Ok(op)) => Fields { cn, op, at1, len1, at2, len2 }.to_string() == text,
            _ => false,
        },
        _ => false,
    }
}

fn value(field: &str) -> Option<u128> {
    field.split_once('=').and_then(|(_, digits)| u128::from_str_radix(digits, 16).ok())
}

/// Whether some line of the form starts so.
fn starts_a_line(start: &[u8]) -> bool {
    (0..=RIGHT.len()).any(|from| is_line(&[start, &RIGHT.as_bytes()[from..]].concat()))
}

/// Holds the reader's word on the first line of a text against the definition of its form and of the place of a stop.
fn judge(text: &[u8]) {
    match read_line(text, 0) {
        Ok((fields, next)) => {
            assert!(is_line(&text[..next]), "{text:?}");
            assert_eq!(fields.to_string().as_bytes(), &text[..next]);
        }
        Err(Stop(stop)) => {
            assert!(starts_a_line(&text[..stop]), "{text:?} stops before {stop}");
            assert!(stop == text.len() || !starts_a_line(&text[..=stop]), "{text:?} stops after {stop}");
        }
    }
}

#[test]
fn the_sample_of_the_document_makes_its_six_claims() {
    let answers = walk(SAMPLE.as_bytes());
    let (end, lines) = answers.split_last().expect("there are answers");
    let claims: Vec<Claim> = lines.iter().map(|&Answer { cn, end1, end2, .. }| Claim { cn, end1, end2 }).collect();
    let meant = [
        Claim::small(1, 32, 0),
        Claim::small(2, 1, 0),
        Claim::small(1, 705, 0),
        Claim::small(1, 0, 0),
        Claim::small(2, 0, 64),
        Claim::small(2, 0x0100_0000, 0),
    ];
    assert_eq!(claims, meant);
    assert_eq!(*end, Answer::default());
    assert_eq!(lines.iter().map(|line| line.next).collect::<Vec<_>>(), [37, 74, 114, 151, 190, 232]);
    assert_eq!(lines.iter().map(|line| line.ranges).collect::<Vec<_>>(), [1, 1, 1, 0, 2, 1]);
}

#[test]
fn a_cut_sample_stops_where_it_is_cut() {
    for kept in 0..=SAMPLE.len() {
        let text = &SAMPLE.as_bytes()[..kept];
        let lines = text.iter().filter(|&&byte| byte == b'\n').count();
        let answers = walk(text);
        let whole = kept == 0 || text.ends_with(b"\n");
        let cut = Answer { refused: 3, line: lines as u64 + 1, stop: kept, ..Answer::default() };
        assert_eq!(answers.len(), lines + 1);
        assert_eq!(answers[lines], if whole { Answer::default() } else { cut }, "{kept} bytes");
    }
}

#[test]
fn a_line_with_any_byte_in_any_place_stops_by_definition() {
    for line in SAMPLE.split_inclusive('\n') {
        for at in 0..line.len() {
            for byte in 0..=u8::MAX {
                let mut text = line.as_bytes().to_vec();
                text[at] = byte;
                judge(&text);
            }
        }
    }
}

#[test]
fn a_line_with_a_byte_more_or_less_stops_by_definition() {
    let largest = "f".repeat(32);
    let long = format!("cn=ffffffff op=f1 at1={largest} len1={largest} at2={largest} len2={largest}\n");
    for line in SAMPLE.split_inclusive('\n').chain([long.as_str()]) {
        for at in 0..=line.len() {
            for more in b" \n0f1aFg=c" {
                judge(&[&line.as_bytes()[..at], &[*more], &line.as_bytes()[at..]].concat());
            }
            judge(&[&line.as_bytes()[..at], line.as_bytes().get(at + 1..).unwrap_or_default()].concat());
        }
    }
}

#[test]
fn a_word_a_byte_and_an_empty_range_keep_their_offset() {
    let read = |line: &str| next_line(line.as_bytes(), 0, 1);
    let at = u128::MAX;
    let word = read(&format!("cn=1 op=51 at1={at:x} len1=0 at2=0 len2=0\n"));
    assert_eq!((word.ranges, word.range1, word.range2), (1, Range { at, len: 32 }, Range::default()));
    assert_eq!(word.end1, Wide::power_of_two(128).wrapping_add(31u8.into()));
    let byte = read(&format!("cn=1 op=53 at1={at:x} len1=0 at2=0 len2=0\n"));
    assert_eq!((byte.ranges, byte.range1, byte.end1), (1, Range { at, len: 1 }, Wide::power_of_two(128)));
    let empty = read(&format!("cn=1 op=f1 at1={at:x} len1=0 at2=7 len2=0\n"));
    assert_eq!((empty.ranges, empty.range1, empty.range2), (2, Range { at, len: 0 }, Range { at: 7, len: 0 }));
    assert_eq!((empty.end1, empty.end2), (Wide::ZERO, Wide::ZERO));
}

#[test]
fn an_opcode_is_refused_unless_it_is_listed() {
    for op in 0..=u8::MAX {
        let answer = next_line(format!("cn=1 op={op:02x} at1=0 len1=0 at2=0 len2=0\n").as_bytes(), 0, 9);
        let refusal = Answer { refused: 5, line: 9, ..Answer::default() };
        assert_eq!(answer == refusal, kind_of(op).is_none(), "{op:02x}");
        assert_eq!(answer.next == 37, kind_of(op).is_some(), "{op:02x}");
    }
}

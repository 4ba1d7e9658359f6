//! Random damage to the text of a list: characters, numbers and lines.

use crate::trials::random::Random;
use crate::trials::tally::{Met, Tally};

/// The bytes of a list, right or wrong.
struct Text {
    bytes: Vec<u8>,
}

type Damage = fn(&mut Text, &mut Random);

/// Every kind of damage to a text that is not empty, by name, with the weight at which it is picked.
const DAMAGES: [(&str, usize, Damage); 13] = [
    ("any byte for another", 4, change_byte),
    ("a bit", 1, change_bit),
    ("no digit for a digit", 1, next_to_a_digit),
    ("any byte more", 3, insert_byte),
    ("a character more", 1, insert_character),
    ("a byte less", 1, remove_byte),
    ("two bytes exchanged", 1, exchange_bytes),
    ("two lines joined", 1, join_lines),
    ("zeros before a number", 1, leading_zeros),
    ("digits before a number", 1, longer_number),
    ("a text cut at its end", 1, cut_end),
    ("a text cut at its start", 1, cut_start),
    ("a part repeated", 1, repeat_part),
];

/// The characters next to the ranges of digits, and digits in upper case.
const NO_DIGITS: &[u8] = b"/:`gAFG@";
/// What a line is made of, and what stands for it elsewhere.
const CHARACTERS: &[u8] = b"cnopatle12=0123456789abcdef  \n\n\t\r\0\xff-+xX_,;";

/// The names of all kinds of damage.
pub fn names() -> impl Iterator<Item = &'static str> {
    DAMAGES.iter().map(|&(name, ..)| name)
}

/// The text after one or several kinds of damage.
pub fn damaged(bytes: Vec<u8>, random: &mut Random, tally: &mut Tally) -> Vec<u8> {
    let mut text = Text { bytes };
    for _ in 0..random.pick(&[1, 1, 1, 1, 1, 2, 3]) {
        if !text.bytes.is_empty() {
            let (name, damage) = random.pick_weighted(&DAMAGES);
            damage(&mut text, random);
            tally.enter(Met::Damage(name));
        }
    }
    text.bytes
}

impl Text {
    /// The place of any byte.
    fn any_place(&self, random: &mut Random) -> usize {
        random.below(self.bytes.len())
    }

    /// The place of some byte of which something holds; if there is none, of any byte.
    fn some_place(&self, random: &mut Random, holds: impl Fn(u8) -> bool) -> usize {
        let places: Vec<usize> = (0..self.bytes.len()).filter(|&at| holds(self.bytes[at])).collect();
        if places.is_empty() { self.any_place(random) } else { random.pick(&places) }
    }
}

fn change_byte(text: &mut Text, random: &mut Random) {
    let at = text.any_place(random);
    text.bytes[at] = random.byte();
}

fn change_bit(text: &mut Text, random: &mut Random) {
    let at = text.any_place(random);
    text.bytes[at] ^= 1 << random.below(8);
}

fn next_to_a_digit(text: &mut Text, random: &mut Random) {
    let at = text.some_place(random, |byte| byte.is_ascii_hexdigit());
    text.bytes[at] = random.pick(NO_DIGITS);
}

fn insert_byte(text: &mut Text, random: &mut Random) {
    text.bytes.insert(random.below(text.bytes.len() + 1), random.byte());
}

fn insert_character(text: &mut Text, random: &mut Random) {
    text.bytes.insert(random.below(text.bytes.len() + 1), random.pick(CHARACTERS));
}

fn remove_byte(text: &mut Text, random: &mut Random) {
    text.bytes.remove(text.any_place(random));
}

fn exchange_bytes(text: &mut Text, random: &mut Random) {
    let [from, to] = [text.any_place(random), text.any_place(random)];
    text.bytes.swap(from, to);
}

/// A line goes on in the next, or a space stands between them.
fn join_lines(text: &mut Text, random: &mut Random) {
    let at = text.some_place(random, |byte| byte == b'\n');
    if random.once_in(2) {
        text.bytes.remove(at);
    } else {
        text.bytes[at] = b' ';
    }
}

/// Zeros before a number.
fn leading_zeros(text: &mut Text, random: &mut Random) {
    let at = text.some_place(random, |byte| byte == b'=') + 1;
    let zeros = random.pick(&[1, 1, 2, 7, 31, 32]);
    text.bytes.splice(at..at, vec![b'0'; zeros]);
}

/// Digits before a number, often more than it may have.
fn longer_number(text: &mut Text, random: &mut Random) {
    let at = text.some_place(random, |byte| byte == b'=') + 1;
    let digits = random.below(36);
    text.bytes.splice(at..at, vec![random.pick(b"19af"); digits]);
}

fn cut_end(text: &mut Text, random: &mut Random) {
    text.bytes.truncate(text.any_place(random));
}

fn cut_start(text: &mut Text, random: &mut Random) {
    text.bytes.drain(..text.any_place(random));
}

/// A part once more, anywhere.
fn repeat_part(text: &mut Text, random: &mut Random) {
    let start = text.any_place(random);
    let length = 1 + random.below(text.bytes.len() - start);
    let part = text.bytes[start..start + length].to_vec();
    let to = random.below(text.bytes.len() + 1);
    text.bytes.splice(to..to, part);
}

//! The answer to a question for one line of a list, in numbers; and the answers to all its lines.

use std::fmt;

use super::instruction::{Fault, Instruction, Range, Touched};
use crate::wide::Wide;

/// What there is to say of a line: its instruction with the claim, or a refusal. What is not meant is 0, and where the
/// list ends all of it.
#[derive(Clone, Copy, Debug, Default, PartialEq, Eq)]
pub struct Answer {
    /// The number of the refusal.
    pub refused: u8,
    /// The line that is refused.
    pub line: u64,
    /// Where a line that is refused for its form leaves it.
    pub stop: usize,
    /// The place after the line.
    pub next: usize,
    /// The context's number.
    pub cn: u32,
    /// The opcode.
    pub op: u8,
    /// How many ranges the instruction touches.
    pub ranges: u8,
    /// The first of them.
    pub range1: Range,
    /// The second of them.
    pub range2: Range,
    /// The first end of the claim.
    pub end1: Wide,
    /// The second end of the claim.
    pub end2: Wide,
}

impl Answer {
    fn of_instruction(instruction: &Instruction, next: usize) -> Answer {
        let (ranges, range1, range2) = match instruction.touched {
            Touched::Nothing => (0, Range::default(), Range::default()),
            Touched::One(range) => (1, range, Range::default()),
            Touched::Two(range1, range2) => (2, range1, range2),
        };
        let claim = instruction.claim();
        let (end1, end2) = (claim.end1, claim.end2);
        Answer { next, cn: claim.cn, op: instruction.op, ranges, range1, range2, end1, end2, ..Answer::default() }
    }

    /// Whether there is no line after this answer: the list has ended, or is refused.
    pub fn is_last(&self) -> bool {
        self.next == 0
    }

    /// The numbers, each with its name: cn, op, the ranges and the ends in hex, the others decimal.
    fn named(&self) -> [(&'static str, String); 13] {
        let hex = |number: u128| format!("{number:x}");
        [
            ("refused", self.refused.to_string()),
            ("line", self.line.to_string()),
            ("stop", self.stop.to_string()),
            ("next", self.next.to_string()),
            ("cn", hex(self.cn.into())),
            ("op", hex(self.op.into())),
            ("ranges", self.ranges.to_string()),
            ("at1", hex(self.range1.at)),
            ("len1", hex(self.range1.len)),
            ("at2", hex(self.range2.at)),
            ("len2", hex(self.range2.len)),
            ("end1", self.end1.to_string()),
            ("end2", self.end2.to_string()),
        ]
    }
}

/// A line of text for an answer: the numbers that are not 0, each after its name, or the word `end`.
impl fmt::Display for Answer {
    fn fmt(&self, out: &mut fmt::Formatter<'_>) -> fmt::Result {
        let told = self.named().into_iter().filter(|(_, number)| number != "0");
        let told: Vec<String> = told.map(|(name, number)| format!("{name}={number}")).collect();
        if told.is_empty() { out.write_str("end") } else { out.write_str(&told.join(" ")) }
    }
}

/// Reads the line that starts at a place. `line` is the number that a refusal gives it.
pub fn next_line(list: &[u8], at: usize, line: u64) -> Answer {
    if at >= list.len() {
        return Answer::default();
    }
    match Instruction::read(list, at) {
        Ok((instruction, next)) => Answer::of_instruction(&instruction, next),
        Err(Fault { number, stop }) => Answer { refused: number, line, stop, ..Answer::default() },
    }
}

/// The answers to the lines of a list in order, the last of them to its end or to the line that is refused.
pub fn walk(list: &[u8]) -> Vec<Answer> {
    let mut answers = vec![next_line(list, 0, 1)];
    for line in 2.. {
        match answers.last() {
            Some(answer) if !answer.is_last() => answers.push(next_line(list, answer.next, line)),
            _ => break,
        }
    }
    answers
}

#[cfg(test)]
mod tests {
    use super::*;

    #[test]
    fn a_list_ends_at_its_length_and_beyond_it() {
        for at in [0, 1, usize::MAX] {
            assert_eq!(next_line(b"", at, 7), Answer::default());
        }
        let list = b"cn=1 op=59 at1=0 len1=0 at2=0 len2=0\n";
        for at in [37, 38, usize::MAX] {
            assert_eq!(next_line(list, at, 7), Answer::default());
        }
        assert_eq!(next_line(list, 36, 7), Answer { refused: 3, line: 7, stop: 36, ..Answer::default() });
    }

    #[test]
    fn a_line_of_text_for_each_kind_of_answer() {
        let told = |list: &[u8]| walk(list).iter().map(Answer::to_string).collect::<Vec<_>>();
        let call = b"cn=2 op=f1 at1=20 len1=0 at2=3f len2=1\ncn=2 op=5e at1=0 len1=0 at2=0 len2=0\n";
        assert_eq!(told(call), ["next=39 cn=2 op=f1 ranges=2 at1=20 at2=3f len2=1 end2=40", "refused=5 line=2"]);
        assert_eq!(told(b"cn=01"), ["refused=3 line=1 stop=4"]);
        assert_eq!(told(b""), ["end"]);
    }
}

//! Test vectors of the list reader: texts, each with what its author means the reader to say of it.

mod ends;
mod fields;
mod form;
mod opcodes;
mod order;
pub(crate) mod texts;
mod unused;
mod whole;

pub use texts::{FAULTS, PLAIN, SAMPLE, lines_of};

use crate::list::{Answer, walk};

/// The text of a list, right or wrong, and what is to be read from it.
#[derive(Clone, Debug)]
pub struct Vector {
    /// What the vector shows, in small letters, digits and underscores.
    pub name: String,
    /// The text.
    pub text: Vec<u8>,
    /// What is meant, stated apart from the reader.
    pub intended: Intended,
}

/// What a text is meant to give.
#[derive(Clone, Debug, PartialEq, Eq)]
pub enum Intended {
    /// Every line is read.
    Read {
        /// The context and the two ends of each line, the ends in hex.
        claims: Vec<(u32, String, String)>,
    },
    /// A line is refused.
    Refused {
        /// The refusal's number.
        number: u8,
        /// The line.
        line: u64,
        /// Where it leaves the form, if it does, else 0.
        stop: usize,
    },
}

impl Intended {
    /// What answers show that run up to the end or a refusal.
    fn shown_by(answers: &[Answer]) -> Intended {
        let (last, read) = answers.split_last().expect("a list has an answer");
        if last.refused == 0 {
            let claim = |answer: &Answer| (answer.cn, answer.end1.to_string(), answer.end2.to_string());
            Intended::Read { claims: read.iter().map(claim).collect() }
        } else {
            Intended::Refused { number: last.refused, line: last.line, stop: last.stop }
        }
    }
}

impl Vector {
    /// The reader's answers, once they show what is meant.
    pub fn agreed(&self) -> Vec<Answer> {
        let answers = walk(&self.text);
        assert_eq!(Intended::shown_by(&answers), self.intended, "vector {}", self.name);
        answers
    }
}

/// The vector of a text that is read to its end, with the context and the two ends of each line, the ends in hex.
fn reads(name: impl Into<String>, text: impl Into<Vec<u8>>, claims: &[(u32, &str, &str)]) -> Vector {
    let claims = claims.iter().map(|&(cn, end1, end2)| (cn, end1.into(), end2.into())).collect();
    Vector { name: name.into(), text: text.into(), intended: Intended::Read { claims } }
}

/// The vector of a text with a line that is refused, for another reason than its form.
fn refused(name: impl Into<String>, text: impl Into<Vec<u8>>, number: u8, line: u64) -> Vector {
    Vector { name: name.into(), text: text.into(), intended: Intended::Refused { number, line, stop: 0 } }
}

/// The vector of a text with a line that leaves the form at a place.
fn stops(name: impl Into<String>, text: impl Into<Vec<u8>>, line: u64, stop: usize) -> Vector {
    Vector { name: name.into(), text: text.into(), intended: Intended::Refused { number: 3, line, stop } }
}

/// Every vector.
pub fn all() -> Vec<Vector> {
    [
        whole::vectors(),
        opcodes::vectors(),
        fields::vectors(),
        form::vectors(),
        ends::vectors(),
        unused::vectors(),
        order::vectors(),
    ]
    .concat()
}

#[cfg(test)]
mod tests {
    use super::*;
    use crate::names::assert_plain_and_different;

    #[test]
    fn the_reader_says_of_each_vector_what_is_meant() {
        for vector in all() {
            vector.agreed();
        }
    }

    #[test]
    fn names_are_plain_and_differ() {
        assert_plain_and_different(all().into_iter().map(|vector| vector.name));
    }

    #[test]
    fn every_refusal_has_its_vectors() {
        for wanted in 3..=6 {
            let refused =
                |vector: &Vector| matches!(vector.intended, Intended::Refused { number, .. } if number == wanted);
            assert!(all().into_iter().filter(refused).count() >= 10, "refusal {wanted}");
        }
    }

    #[test]
    fn together_they_stay_small() {
        let bytes: usize = all().iter().map(|vector| vector.text.len()).sum();
        assert!(bytes < 200_000, "{bytes} bytes");
    }
}

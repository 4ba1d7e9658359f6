//! Test vectors of `account`: lists, each with what its author means it to be charged.

mod contexts;
mod ends;
mod limits;
mod opcodes;
mod refused;

use crate::list_vectors::SAMPLE;
use crate::program::{Charge, Report, account};
use crate::refusal::Refusal;

/// The output of `account` for its input in document 01.
pub const SAMPLE_REPORT: &str = "\
stamp=1 cn=1 oob=0 size=32 words=1 gas=3
stamp=2 cn=2 oob=0 size=1 words=1 gas=3
stamp=3 cn=1 oob=0 size=705 words=23 gas=67
stamp=4 cn=1 oob=0 size=705 words=23 gas=0
stamp=5 cn=2 oob=0 size=64 words=2 gas=3
stamp=6 cn=2 oob=1 size=64 words=2 gas=0
instructions=6 oob=1 rows=33
";

/// A list, right or wrong, and what `account` is to say of it.
#[derive(Clone, Debug)]
pub struct Vector {
    /// What the vector shows, in small letters, digits and underscores.
    pub name: String,
    /// The input.
    pub list: Vec<u8>,
    /// What is meant, stated apart from the filler.
    pub intended: Report,
}

impl Vector {
    /// What is meant, once the filler has come to the same.
    pub fn agreed(&self) -> Report {
        let found = account(&self.list);
        assert_eq!(found, self.intended, "vector {}", self.name);
        found
    }
}

/// What is meant for an instruction: its context, OOOB, and the size, the words and the gas in decimal.
type Meant = (u32, u8, u32, u32, u32);

/// The vector of a list that is charged so, instruction by instruction.
fn charged(name: impl Into<String>, list: impl Into<Vec<u8>>, meant: &[Meant]) -> Vector {
    let charge = |(stamp, &(cn, oob, size, words, gas)): (u32, &Meant)| Charge { stamp, cn, oob, size, words, gas };
    let charges = (1..).zip(meant).map(charge).collect();
    let rows = 1 + meant.iter().map(|&(_, oob, ..)| if oob == 1 { 17 } else { 3 }).sum::<usize>();
    Vector { name: name.into(), list: list.into(), intended: Report::Charged { charges, rows } }
}

/// The vector of a list that is refused. `line` is 0 if no line is.
fn refused(name: impl Into<String>, list: impl Into<Vec<u8>>, number: u8, line: u64) -> Vector {
    Vector { name: name.into(), list: list.into(), intended: Report::Refused(Refusal { number, line }) }
}

/// Every vector.
pub fn all() -> Vec<Vector> {
    [whole(), opcodes::vectors(), ends::vectors(), contexts::vectors(), limits::vectors(), refused::vectors()].concat()
}

fn whole() -> Vec<Vector> {
    let sample = [
        (1, 0, 32, 1, 3),
        (2, 0, 1, 1, 3),
        (1, 0, 705, 23, 67),
        (1, 0, 705, 23, 0),
        (2, 0, 64, 2, 3),
        (2, 1, 64, 2, 0),
    ];
    vec![charged("sample_of_the_document", SAMPLE, &sample), charged("list_of_none", "", &[])]
}

#[cfg(test)]
mod tests {
    use super::*;
    use crate::names::assert_plain_and_different;

    #[test]
    fn the_filler_charges_each_vector_as_meant() {
        for vector in all() {
            vector.agreed();
        }
    }

    #[test]
    fn the_sample_is_printed_as_the_document_does() {
        let sample = all().into_iter().find(|vector| vector.name == "sample_of_the_document");
        assert_eq!(sample.map(|vector| vector.intended.to_string()).as_deref(), Some(SAMPLE_REPORT));
    }

    #[test]
    fn names_are_plain_and_differ() {
        assert_plain_and_different(all().into_iter().map(|vector| vector.name));
    }

    #[test]
    fn every_refusal_of_the_program_has_its_vectors() {
        for wanted in [1, 3, 4, 5, 6, 8] {
            let refused = |vector: &Vector| matches!(vector.intended, Report::Refused(Refusal { number, .. }) if number == wanted);
            assert!(all().into_iter().filter(refused).count() >= 3, "refusal {wanted}");
        }
    }

    #[test]
    fn together_they_stay_small() {
        let bytes: usize = all().iter().map(|vector| vector.list.len() + vector.intended.to_string().len()).sum();
        assert!(bytes < 1_500_000, "{bytes} bytes");
    }
}

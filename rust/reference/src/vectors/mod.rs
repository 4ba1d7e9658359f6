//! Test vectors: traces, each with the verdict that its author means it to get. The families follow the constraints.

mod accepted;
mod carried;
mod choices;
mod ends;
mod frame;
mod order;
mod out_of_bounds;
mod price;
mod refused;
mod scenes;
mod sums;

use crate::check::Verdict;
use crate::draft::Draft;
use crate::program::verify;

/// A trace, right or wrong, and what `verify` is to say of it.
#[derive(Clone, Debug)]
pub struct Vector {
    /// What the vector shows, in small letters, digits and underscores.
    pub name: String,
    /// The input.
    pub bytes: Vec<u8>,
    /// The verdict that is meant, stated apart from the checker.
    pub intended: Verdict,
}

impl Vector {
    /// The verdict that is meant, once the checker has come to the same.
    pub fn agreed(&self) -> Verdict {
        let found = verify(&self.bytes);
        assert_eq!(found, self.intended, "vector {}", self.name);
        found
    }
}

/// Every vector.
pub fn all() -> Vec<Vector> {
    [
        frame::vectors(),
        carried::vectors(),
        sums::vectors(),
        choices::vectors(),
        ends::vectors(),
        price::vectors(),
        out_of_bounds::vectors(),
        order::vectors(),
        accepted::vectors(),
        refused::vectors(),
    ]
    .concat()
}

impl Draft {
    /// The vector of this draft, which first breaks `constraint` in `row`.
    fn breaks(self, name: impl Into<String>, row: usize, constraint: u8) -> Vector {
        let row = u32::try_from(row).expect("a row of a trace");
        self.vector(name, Verdict::Broken { row, constraint })
    }

    /// The vector of this draft, which is accepted with these counts.
    fn holds(self, name: impl Into<String>, instructions: u32, oob: u32, empty: u32) -> Vector {
        let intended = Verdict::Accepted { instructions, oob, empty };
        self.vector(name, intended)
    }

    fn vector(self, name: impl Into<String>, intended: Verdict) -> Vector {
        Vector { name: name.into(), bytes: self.to_bytes(), intended }
    }
}

#[cfg(test)]
mod tests {
    use std::collections::HashMap;

    use super::*;
    use crate::names::assert_plain_and_different;

    #[test]
    fn the_checker_gives_each_vector_the_verdict_that_is_meant() {
        for vector in all() {
            vector.agreed();
        }
    }

    #[test]
    fn names_are_plain_and_differ() {
        assert_plain_and_different(all().into_iter().map(|vector| vector.name));
    }

    #[test]
    fn a_vector_named_for_a_constraint_is_meant_to_break_it() {
        for Vector { name, intended, .. } in all() {
            let number = name.strip_prefix('c').and_then(|rest| rest.get(..2));
            let named = number.and_then(|digits| digits.parse::<u8>().ok());
            if let Some(named) = named {
                let broken = matches!(intended, Verdict::Broken { constraint, .. } if constraint == named);
                assert!(broken, "{name}");
            }
        }
    }

    #[test]
    fn every_verdict_has_its_vectors() {
        let mut count = HashMap::new();
        for Vector { intended, .. } in all() {
            let kind = match intended {
                Verdict::Accepted { .. } => "accepted".to_string(),
                Verdict::Broken { constraint, .. } => format!("constraint {constraint}"),
                Verdict::Refused { number } => format!("refusal {number}"),
            };
            *count.entry(kind).or_insert(0) += 1;
        }
        let constraints = (1..=26).map(|constraint| format!("constraint {constraint}"));
        let others = ["accepted", "refusal 9", "refusal 10"].map(String::from);
        for kind in constraints.chain(others) {
            assert!(count.get(&kind).is_some_and(|&count| count >= 4), "{kind}");
        }
    }

    #[test]
    fn together_they_stay_small() {
        let bytes: usize = all().iter().map(|vector| vector.bytes.len()).sum();
        assert!(bytes < 3_000_000, "{bytes} bytes");
    }
}

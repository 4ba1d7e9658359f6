//! How the context of an instruction stands to those of the instructions before it: whether it is known, how it stands
//! to the lowest and the highest, and whether another came since that shares its remainder.

use std::collections::{BTreeSet, HashMap, HashSet};
use std::fmt;

/// Remainders of contexts by these are looked at: such as tables of the latest instructions go by.
pub const MODULI: [u32; 2] = [256, 1_024];

/// Something that holds of a context beside those before it. The lowest and the highest are those of them.
#[derive(Clone, Copy, Debug, PartialEq, Eq, PartialOrd, Ord)]
pub enum Meeting {
    /// It is the lowest, and there are higher ones.
    Lowest,
    /// It is the highest, and there are lower ones.
    Highest,
    /// It is one below the lowest.
    BelowLowest,
    /// It is new and one above the lowest, and there are higher ones.
    AboveLowest,
    /// It is new and one below the highest, and there are lower ones.
    BelowHighest,
    /// It is one above the highest.
    AboveHighest,
    /// It is further below the lowest or further above the highest.
    FarOutside,
    /// It is context 1.
    Least {
        /// It is one of those before.
        known: bool,
    },
    /// It is context 2^32 - 1.
    Largest {
        /// It is one of those before.
        known: bool,
    },
    /// It lies from the lowest to the highest, and the latest context of the same remainder is another.
    Shared {
        /// What it is the remainder by.
        modulus: u32,
        /// It is one of those before.
        known: bool,
    },
}

impl Meeting {
    /// All of them.
    pub fn all() -> impl Iterator<Item = Meeting> {
        use Meeting::*;
        let alone = [Lowest, Highest, BelowLowest, AboveLowest, BelowHighest, AboveHighest, FarOutside];
        let known_or_not = [false, true].into_iter().flat_map(|known| {
            let shared = MODULI.map(|modulus| Shared { modulus, known });
            [Least { known }, Largest { known }].into_iter().chain(shared)
        });
        alone.into_iter().chain(known_or_not)
    }
}

/// What is said of such a context.
impl fmt::Display for Meeting {
    fn fmt(&self, out: &mut fmt::Formatter<'_>) -> fmt::Result {
        let known = |known| if known { "known" } else { "new" };
        match *self {
            Meeting::Lowest => out.write_str("the lowest"),
            Meeting::Highest => out.write_str("the highest"),
            Meeting::BelowLowest => out.write_str("one below the lowest"),
            Meeting::AboveLowest => out.write_str("one above the lowest"),
            Meeting::BelowHighest => out.write_str("one below the highest"),
            Meeting::AboveHighest => out.write_str("one above the highest"),
            Meeting::FarOutside => out.write_str("far outside"),
            Meeting::Least { known: is } => write!(out, "1, {}", known(is)),
            Meeting::Largest { known: is } => write!(out, "2^32 - 1, {}", known(is)),
            Meeting::Shared { modulus, known: is } => write!(out, "of a shared remainder by {modulus}, {}", known(is)),
        }
    }
}

/// All that holds of any of some contexts beside those before it.
pub fn meetings(contexts: impl IntoIterator<Item = u32>) -> BTreeSet<Meeting> {
    let mut known = Known::default();
    let mut found = BTreeSet::new();
    for cn in contexts {
        known.meet(cn, &mut found);
        known.enter(cn);
    }
    found
}

/// The contexts so far.
#[derive(Default)]
struct Known {
    all: HashSet<u32>,
    ends: Option<(u32, u32)>,
    /// The latest of each remainder.
    latest: [HashMap<u32, u32>; MODULI.len()],
}

impl Known {
    fn enter(&mut self, cn: u32) {
        self.all.insert(cn);
        self.ends = Some(self.ends.map_or((cn, cn), |(lowest, highest)| (lowest.min(cn), highest.max(cn))));
        for (latest, modulus) in self.latest.iter_mut().zip(MODULI) {
            latest.insert(cn % modulus, cn);
        }
    }

    fn meet(&self, cn: u32, found: &mut BTreeSet<Meeting>) {
        let known = self.all.contains(&cn);
        if cn == 1 {
            found.insert(Meeting::Least { known });
        }
        if cn == u32::MAX {
            found.insert(Meeting::Largest { known });
        }
        let Some((lowest, highest)) = self.ends else { return };
        found.extend(by_ends(cn, known, lowest, highest));
        if (lowest..=highest).contains(&cn) {
            let shares =
                |latest: &HashMap<u32, u32>, modulus| latest.get(&(cn % modulus)).is_some_and(|&other| other != cn);
            let shared = self.latest.iter().zip(MODULI).filter(|&(latest, modulus)| shares(latest, modulus));
            found.extend(shared.map(|(_, modulus)| Meeting::Shared { modulus, known }));
        }
    }
}

/// How a context stands to the lowest and the highest.
fn by_ends(cn: u32, known: bool, lowest: u32, highest: u32) -> impl Iterator<Item = Meeting> {
    let (low, high, at) = (i64::from(lowest), i64::from(highest), i64::from(cn));
    let several = low < high;
    [
        (several && at == low, Meeting::Lowest),
        (several && at == high, Meeting::Highest),
        (at == low - 1, Meeting::BelowLowest),
        (at == high + 1, Meeting::AboveHighest),
        (!known && at == low + 1 && at < high, Meeting::AboveLowest),
        (!known && at == high - 1 && at > low, Meeting::BelowHighest),
        (at < low - 1 || at > high + 1, Meeting::FarOutside),
    ]
    .into_iter()
    .filter_map(|(holds, meeting)| holds.then_some(meeting))
}

#[cfg(test)]
mod tests {
    use super::*;
    use Meeting::*;

    /// What holds of the last of some contexts.
    fn of_last(contexts: &[u32]) -> Vec<Meeting> {
        let (&last, before) = contexts.split_last().expect("there is a last one");
        let mut known = Known::default();
        before.iter().for_each(|&cn| known.enter(cn));
        let mut found = BTreeSet::new();
        known.meet(last, &mut found);
        found.into_iter().collect()
    }

    #[test]
    fn contexts_stand_to_the_lowest_and_the_highest() {
        assert_eq!(of_last(&[7]), []);
        assert_eq!(of_last(&[7, 7]), []);
        assert_eq!(of_last(&[7, 9, 7]), [Lowest]);
        assert_eq!(of_last(&[7, 9, 9]), [Highest]);
        assert_eq!(of_last(&[7, 9, 6]), [BelowLowest]);
        assert_eq!(of_last(&[7, 9, 10]), [AboveHighest]);
        assert_eq!(of_last(&[7, 9, 8]), [AboveLowest, BelowHighest]);
        assert_eq!(of_last(&[7, 9, 8, 8]), []);
        assert_eq!(of_last(&[7, 9, 5]), [FarOutside]);
        assert_eq!(of_last(&[7, 9, 11]), [FarOutside]);
    }

    #[test]
    fn the_ends_of_all_numbers_are_met() {
        assert_eq!(of_last(&[1]), [Least { known: false }]);
        assert_eq!(of_last(&[2, 1]), [BelowLowest, Least { known: false }]);
        assert_eq!(of_last(&[1, 2, 1]), [Lowest, Least { known: true }]);
        assert_eq!(of_last(&[7, u32::MAX]), [FarOutside, Largest { known: false }]);
        assert_eq!(of_last(&[7, u32::MAX, u32::MAX]), [Highest, Largest { known: true }]);
    }

    #[test]
    fn remainders_are_shared_with_the_latest_alone() {
        let shared = |modulus, known| Shared { modulus, known };
        assert_eq!(of_last(&[1, 9_000, 7, 1_031]), [shared(256, false), shared(1_024, false)]);
        assert_eq!(of_last(&[1, 9_000, 7, 263]), [shared(256, false)]);
        assert_eq!(of_last(&[1, 9_000, 7, 1_031, 7]), [shared(256, true), shared(1_024, true)]);
        assert_eq!(of_last(&[1, 9_000, 1_031, 7, 7]), []);
        assert_eq!(of_last(&[7, 1_031]), [FarOutside]);
    }

    #[test]
    fn all_of_them_are_different() {
        assert_eq!(Meeting::all().collect::<BTreeSet<_>>().len(), Meeting::all().count());
        assert_eq!(meetings([]), BTreeSet::new());
    }
}

//! A random list of more contexts than there are remainders by 1,024, put to both fillers; and the trace that comes of
//! it, right and damaged, to both checkers.

use reference::row::Row;
use reference::{Draft, ROW_BYTES};

use crate::Outcome;
use crate::fill::filling::{Order, compare};
use crate::trials::cast::family;
use crate::trials::damage::{damaged, misplace};
use crate::trials::list_story::{BOUND_BITS, right_line};
use crate::trials::random::Random;
use crate::trials::tally::{CROWD, Source, Tally};
use crate::trials::traces::judge;

/// A list has at most so many contexts.
const MOST_CONTEXTS: usize = 1_500;
/// So often one of its cycles is put where it should not stand.
const MISPLACED: usize = 4;
/// A context that acts again is one of so many of the latest, or one of all.
const LATEST: [usize; 4] = [1, 64, 1_100, usize::MAX];

/// Compares on a list and on what comes of it.
pub fn compare_one(random: &mut Random, tally: &mut Tally) -> Outcome<()> {
    let contexts = arrivals(random);
    let bits = random.below(BOUND_BITS + 1);
    let list: String = contexts.iter().map(|&cn| right_line(cn, bits, random)).collect();
    let empty_rows = 1 + random.below(3) as u64;
    let order = Order { list: list.as_bytes(), behind: &[], empty_rows, room: contexts.len() * 17 * ROW_BYTES };
    let trace = compare(&order)?.map_err(|refusal| format!("both fillers refuse the list: {refusal}"))?;
    let claims = order.claims()?;
    tally.enter_claims(Source::Lists, &claims);
    tally.enter_claims(Source::Traces, &claims);
    let draft = Draft { rows: trace.as_chunks().0.iter().map(Row::from_bytes).collect() };
    judge(&damaged(draft.clone(), random, tally), tally)?;
    for _ in 0..MISPLACED {
        let mut draft = draft.clone();
        misplace(&mut draft, random, tally);
        judge(&draft.to_bytes(), tally)?;
    }
    Ok(())
}

/// The context of each instruction: new ones one after another, rising, falling or in any order, and between them some
/// that are known.
fn arrivals(random: &mut Random) -> Vec<u32> {
    let mut contexts = family(random.between(CROWD, MOST_CONTEXTS), random);
    match random.below(3) {
        0 => contexts.reverse(),
        1 => shuffle(&mut contexts, random),
        _ => {}
    }
    let known_of_8 = random.pick(&[0, 2, 4, 6]);
    let mut acting = Vec::new();
    let mut arrived = 0;
    while arrived < contexts.len() {
        if arrived == 0 || random.below(8) >= known_of_8 {
            arrived += 1;
            acting.push(contexts[arrived - 1]);
        } else {
            let latest = random.pick(&LATEST).min(arrived);
            acting.push(contexts[arrived - 1 - random.below(latest)]);
        }
    }
    acting
}

fn shuffle(contexts: &mut [u32], random: &mut Random) {
    for place in (1..contexts.len()).rev() {
        contexts.swap(place, random.below(place + 1));
    }
}

#[cfg(test)]
mod tests {
    use super::*;
    use std::collections::BTreeSet;

    #[test]
    fn every_crowd_has_more_contexts_than_there_are_remainders() {
        for seed in 0..20 {
            let contexts = arrivals(&mut Random::new(seed));
            assert!(contexts.iter().collect::<BTreeSet<_>>().len() >= CROWD, "seed {seed}");
            assert!(contexts.iter().all(|&cn| cn != 0), "seed {seed}");
        }
    }
}

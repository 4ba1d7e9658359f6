//! A random trace, right or damaged, put to both checkers, and questions of every kind to both.

use reference::{MAX_ROWS, ROW_BYTES, Row, Verdict};

use crate::Outcome;
use crate::check::compare::compare;
use crate::trials::damage::damaged;
use crate::trials::questions::ask_some;
use crate::trials::random::Random;
use crate::trials::remade::stop_of;
use crate::trials::story::Story;
use crate::trials::tally::{Call, Met, Source, Tally};

/// One in so many traces has more rows than there may be.
const TOO_LONG_ONCE_IN: usize = 600;
/// One in so many traces is as it was told.
const RIGHT_ONCE_IN: usize = 3;

/// Compares on a trace.
pub fn compare_one(random: &mut Random, tally: &mut Tally) -> Outcome<()> {
    let story = Story::tell(random);
    tally.enter_claims(Source::Traces, &story.claims);
    let bytes = some_bytes(&story, random, tally);
    judge(&bytes, tally)?;
    ask_some(&bytes, random, tally).map_err(|error| told(&bytes, error))
}

/// Adds to a message what was put to both.
fn told(bytes: &[u8], error: String) -> String {
    format!("trace of {} bytes: {error}", bytes.len())
}

/// Both checkers must come to the same. A trace is right exactly if each of its cycles can be made again; where it is
/// not, a constraint is broken in the first that cannot, which may have the rows of the other kind.
pub fn judge(bytes: &[u8], tally: &mut Tally) -> Outcome<()> {
    let verdict = compare(bytes).map_err(|error| told(bytes, error))?;
    tally.enter(met(verdict));
    if let Verdict::Refused { .. } = verdict {
        return Ok(());
    }
    let rows: Vec<Row> = bytes.as_chunks().0.iter().map(Row::from_bytes).collect();
    match (verdict, stop_of(&rows)) {
        (Verdict::Accepted { .. }, None) => Ok(()),
        (Verdict::Broken { row, constraint }, Some(stop)) if stop.may_be_broken_in(row as usize) => {
            tally.enter_stop(&stop, constraint);
            Ok(())
        }
        (_, stop) => Err(told(bytes, format!("both answer {verdict}, made again it comes to {stop:?}"))),
    }
}

/// The trace as it is told, with damage, or so often repeated that it is too long.
fn some_bytes(story: &Story, random: &mut Random, tally: &mut Tally) -> Vec<u8> {
    let draft = story.draft();
    if random.once_in(TOO_LONG_ONCE_IN) {
        let size = (MAX_ROWS + random.between(1, 100)) * ROW_BYTES;
        let mut bytes = draft.to_bytes();
        bytes = bytes.repeat(size.div_ceil(bytes.len()));
        bytes.truncate(size);
        return bytes;
    }
    if random.once_in(RIGHT_ONCE_IN) { draft.to_bytes() } else { damaged(draft, random, tally) }
}

fn met(verdict: Verdict) -> Met {
    match verdict {
        Verdict::Accepted { .. } => Met::Answer(Call::Check),
        Verdict::Broken { constraint, .. } => Met::Constraint(constraint),
        Verdict::Refused { number } => Met::Refusal(Call::Check, number),
    }
}

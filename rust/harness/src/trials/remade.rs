//! A trace made again cycle by cycle, each from what its first row claims and from where its context stands: the cycle
//! at which that ends, and why. A trace is right exactly if it does not end before the last row.

use std::collections::HashMap;
use std::ops::Range;

use reference::make::{make_cycle, state_after};
use reference::{Claim, Row, State};

/// The rows of a cycle out of bounds.
const MOST_ROWS: usize = 17;

/// Contexts that have the same remainder by this share an entry in a table of the latest instructions.
const ENTRIES: u32 = 1_024;

/// Whether the claim of a cycle is in bounds.
#[derive(Clone, Copy, Debug, PartialEq, Eq, PartialOrd, Ord)]
pub enum Kind {
    /// It is.
    Within,
    /// It is not.
    Beyond,
}

/// Where a cycle stands in its trace.
#[derive(Clone, Copy, Debug, PartialEq, Eq, PartialOrd, Ord)]
pub enum Place {
    /// No cycle stands before it.
    First,
    /// Others stand on both sides.
    Middle,
    /// No row stands behind it.
    Last,
}

/// Where a row stands in its cycle.
#[derive(Clone, Copy, Debug, PartialEq, Eq, PartialOrd, Ord)]
pub enum Line {
    /// It is the first row.
    First,
    /// It is the second.
    Second,
    /// It is neither of the first two nor the last.
    Between,
    /// It is the last row.
    Last,
}

/// Why a cycle is not the one that is made again.
#[derive(Clone, Copy, Debug, PartialEq, Eq)]
pub enum Cause {
    /// No empty row stands before the first cycle.
    NoEmptyRow,
    /// It is of context 0.
    NoContext,
    /// The trace ends in it, and its rows up to there are right.
    Cut,
    /// This is the first row that is another.
    Differs(Line),
}

/// What a whole cycle is wrong in that is right by itself.
#[derive(Clone, Copy, Debug, PartialEq, Eq, PartialOrd, Ord)]
pub enum Misplaced {
    /// It has another stamp than the next.
    Stamp,
    /// Its context stood there before one of its earlier cycles.
    EarlierState,
    /// Its context is known and has reached something, but it goes on from nothing.
    AsIfNew,
    /// Another context stands there.
    OthersState,
    /// Its context is new, but it goes on from something.
    NotNew,
}

impl Misplaced {
    /// All of them.
    pub const ALL: [Misplaced; 5] =
        [Misplaced::Stamp, Misplaced::EarlierState, Misplaced::AsIfNew, Misplaced::OthersState, Misplaced::NotNew];
}

/// The first cycle of a trace that is not the one that is made again.
#[derive(Debug, PartialEq, Eq)]
pub struct Stop {
    /// The rows that it should have, of those that are there.
    pub rows: Range<usize>,
    /// Whether its claim is in bounds.
    pub kind: Kind,
    /// Where it stands; one that is alone is the first and the last.
    pub places: Vec<Place>,
    /// Why it is not.
    pub cause: Cause,
    /// What it is wrong in, if it is right by itself.
    pub misplaced: Option<Misplaced>,
    /// Whether the latest context before it that has the same remainder by 1,024 is another.
    pub shares: bool,
}

impl Stop {
    /// Whether a row is one of the cycle, of whichever kind it is.
    pub fn may_be_broken_in(&self, row: usize) -> bool {
        (self.rows.start..self.rows.start + MOST_ROWS).contains(&row)
    }
}

/// Where a trace that is made again cycle by cycle comes to a stop, if it does.
pub fn stop_of(rows: &[Row]) -> Option<Stop> {
    let empty = rows.iter().take_while(|&row| *row == Row::default()).count();
    let mut reached = Reached::default();
    let mut at = empty;
    for stamp in 1.. {
        let claim = Claim::of_row(rows.get(at)?);
        let made = make_cycle(stamp, &claim, reached.state(claim.cn));
        let there = &rows[at..rows.len().min(at + made.len())];
        let cause = if empty == 0 { Some(Cause::NoEmptyRow) } else { cause_of(there, &made) };
        if let Some(cause) = cause {
            let misplaced = reached.misplaced(stamp, there, &rows[..at]);
            return Some(Stop {
                rows: at..at + there.len(),
                kind: kind_of(&claim),
                places: places_of(at == empty, at + there.len() == rows.len()),
                cause,
                misplaced,
                shares: shares(claim.cn, &rows[..at]),
            });
        }
        reached.states.insert(claim.cn, state_after(&made));
        at += made.len();
    }
    None
}

/// Why rows are not those of a cycle.
fn cause_of(there: &[Row], made: &[Row]) -> Option<Cause> {
    if let Some(at) = there.iter().zip(made).position(|(row, made)| row != made) {
        return Some(Cause::Differs(line_of(at, made.len())));
    }
    if there.len() < made.len() {
        return Some(Cause::Cut);
    }
    (made[0].cn == 0).then_some(Cause::NoContext)
}

/// Whether the latest of some rows that has the remainder of a context is of another.
fn shares(cn: u32, before: &[Row]) -> bool {
    let same_remainder = |row: &&Row| row.stamp != 0 && row.cn % ENTRIES == cn % ENTRIES;
    before.iter().rev().find(same_remainder).is_some_and(|row| row.cn != cn)
}

fn kind_of(claim: &Claim) -> Kind {
    if claim.in_bounds() { Kind::Within } else { Kind::Beyond }
}

fn line_of(at: usize, rows: usize) -> Line {
    match at {
        0 => Line::First,
        _ if at + 1 == rows => Line::Last,
        1 => Line::Second,
        _ => Line::Between,
    }
}

fn places_of(is_first: bool, is_last: bool) -> Vec<Place> {
    match (is_first, is_last) {
        (true, true) => vec![Place::First, Place::Last],
        (true, false) => vec![Place::First],
        (false, true) => vec![Place::Last],
        (false, false) => vec![Place::Middle],
    }
}

/// Where the contexts stand after some cycles.
#[derive(Default)]
struct Reached {
    states: HashMap<u32, State>,
}

impl Reached {
    fn state(&self, cn: u32) -> State {
        self.states.get(&cn).copied().unwrap_or_default()
    }

    /// What rows are wrong in, if they are a whole cycle that is right by itself, but not the next after those before.
    fn misplaced(&self, stamp: u32, there: &[Row], before: &[Row]) -> Option<Misplaced> {
        let shown = there[0];
        let (cn, state) = (shown.cn, State { mem: shown.mem, cost: shown.cost });
        if cn == 0 || there != make_cycle(shown.stamp, &Claim::of_row(&shown), state) {
            return None;
        }
        match (shown.stamp == stamp, state == self.state(cn)) {
            (false, true) => Some(Misplaced::Stamp),
            (true, false) => self.misplaced_by_state(cn, state, before),
            _ => None,
        }
    }

    /// What a state is that a context does not have.
    fn misplaced_by_state(&self, cn: u32, state: State, before: &[Row]) -> Option<Misplaced> {
        if !self.states.contains_key(&cn) {
            return Some(Misplaced::NotNew);
        }
        if state == State::default() {
            return Some(Misplaced::AsIfNew);
        }
        let had = |row: &Row| row.stamp != 0 && row.cn == cn && state == State { mem: row.mem, cost: row.cost };
        if before.iter().any(had) {
            return Some(Misplaced::EarlierState);
        }
        self.states.values().any(|&others| others == state).then_some(Misplaced::OthersState)
    }
}

#[cfg(test)]
mod tests {
    use super::*;
    use reference::row::Column::*;
    use reference::{BOUND, Draft, Wide};

    const NOTHING: State = State { mem: 0, cost: 0 };

    /// An empty row, then rows 1 to 3 in bounds, 4 to 20 out of bounds, 21 to 23 and 24 to 26 in bounds.
    fn tour() -> Draft {
        let far = Claim { cn: 2, end1: Wide::MAX, end2: BOUND };
        Draft::new(1, &[Claim::small(1, 64, 0), far, Claim::small(1, 96, 0), Claim::small(2, 32, 0)])
    }

    fn stop(draft: Draft) -> Stop {
        stop_of(&draft.rows).expect("the trace is wrong")
    }

    #[test]
    fn a_right_trace_is_made_again_to_its_end() {
        assert_eq!(stop_of(&tour().rows), None);
        assert_eq!(stop_of(&tour().rows[..1]), None);
        assert_eq!(stop_of(&tour().rows[..21]), None);
    }

    #[test]
    fn the_first_row_that_differs_is_found_in_its_cycle() {
        for (row, rows, kind, place, line) in [
            (1, 1..4, Kind::Within, Place::First, Line::First),
            (2, 1..4, Kind::Within, Place::First, Line::Second),
            (3, 1..4, Kind::Within, Place::First, Line::Last),
            (4, 4..21, Kind::Beyond, Place::Middle, Line::First),
            (6, 4..21, Kind::Beyond, Place::Middle, Line::Between),
            (20, 4..21, Kind::Beyond, Place::Middle, Line::Last),
            (26, 24..27, Kind::Within, Place::Last, Line::Last),
        ] {
            let cause = Cause::Differs(line);
            let found = stop(tour().set(row, AUX2, 77u8));
            let meant = Stop { rows, kind, places: vec![place], cause, misplaced: None, shares: false };
            assert_eq!(found, meant, "row {row}");
        }
    }

    #[test]
    fn a_cycle_that_is_cut_is_the_last() {
        for (kept, kind) in [(2, Kind::Within), (5, Kind::Beyond), (20, Kind::Beyond), (26, Kind::Within)] {
            let found = stop(tour().keep(0..kept));
            assert_eq!((found.cause, found.kind, found.places.last()), (Cause::Cut, kind, Some(&Place::Last)));
        }
        assert_eq!(stop(tour().keep(0..2)).places, [Place::First, Place::Last]);
        assert_eq!(stop(tour().keep(0..26).set(25, AUX2, 77u8)).cause, Cause::Differs(Line::Second));
    }

    #[test]
    fn an_entry_is_shared_with_the_latest_alone() {
        let then = |cn| stop(tour().then(&Claim::small(cn, 640, 0), State { mem: 1, cost: 1 })).shares;
        assert!(then(1_025) && then(1_026) && then(2_050));
        assert!(!then(1) && !then(2) && !then(3) && !then(258));
    }

    #[test]
    fn the_frame_is_told_apart() {
        assert_eq!(stop(tour().keep(1..27)).cause, Cause::NoEmptyRow);
        let of_none = Draft::new(1, &[]).then(&Claim::small(0, 64, 0), NOTHING);
        assert_eq!(stop(of_none).cause, Cause::NoContext);
    }

    #[test]
    fn a_whole_cycle_is_told_by_what_it_is_wrong_in() {
        let then = |claim: Claim, mem, cost| stop(tour().then(&claim, State { mem, cost })).misplaced;
        let [one, two, three] = [1, 2, 3].map(|cn| Claim::small(cn, 640, 0));
        assert_eq!(then(one, 64, 6), Some(Misplaced::EarlierState));
        assert_eq!(then(one, 0, 0), Some(Misplaced::AsIfNew));
        assert_eq!(then(one, 32, 3), Some(Misplaced::OthersState));
        assert_eq!(then(two, 96, 9), Some(Misplaced::OthersState));
        assert_eq!(then(three, 96, 9), Some(Misplaced::NotNew));
        assert_eq!(then(two, 31, 3), None);
        let stamp = tour().then(&two, State { mem: 32, cost: 3 }).set_in(27..30, STAMP, 7u8);
        assert_eq!(stop(stamp).misplaced, Some(Misplaced::Stamp));
    }
}

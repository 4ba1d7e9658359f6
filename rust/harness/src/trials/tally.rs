//! What random traces and lists met, how often, and whether that is enough to show something.

use std::collections::{BTreeMap, BTreeSet};

use reference::Claim;

use crate::Outcome;
use crate::options::Trials;
use crate::trials::cast::{MOST_CONTEXTS, MOST_CYCLES};
use crate::trials::meetings::{Meeting, meetings};
use crate::trials::remade::{Cause, Kind, Line, Misplaced, Place, Stop};
use crate::trials::{damage, list_damage};

/// The constraints are numbered from 1 to this.
pub const CONSTRAINTS: u8 = 26;
/// Of the default number of traces and lists, at least so many must meet each thing, or they show too little.
const LEAST_HITS: u64 = 50;

/// So many contexts are more than there are remainders by 1,024.
pub const CROWD: usize = 1_025;

/// What a claim is of.
#[derive(Clone, Copy, Debug, PartialEq, Eq, PartialOrd, Ord)]
pub enum Source {
    /// A right trace.
    Traces,
    /// A list that is filled.
    Lists,
}

/// A call of the library.
#[derive(Clone, Copy, Debug, PartialEq, Eq, PartialOrd, Ord)]
pub enum Call {
    /// The checker.
    Check,
    /// The filler.
    Fill,
    /// The rows of an instruction.
    Rows,
    /// The claim of an instruction.
    Claim,
    /// The last state of a context.
    LastState,
    /// The opening of a walker.
    Open,
    /// The step of a walker.
    Step,
}

impl Call {
    /// All of them.
    pub const ALL: [Call; 7] =
        [Call::Check, Call::Fill, Call::Rows, Call::Claim, Call::LastState, Call::Open, Call::Step];

    /// The refusals that the call may give.
    pub fn refusals(self) -> &'static [u8] {
        match self {
            Call::Check => &[9, 10],
            Call::Fill => &[1, 2, 3, 4, 5, 6, 7, 8],
            Call::Rows | Call::Claim => &[9, 10, 11, 12],
            Call::LastState => &[9, 10, 11, 13, 14],
            Call::Open => &[9, 10, 11],
            Call::Step => &[],
        }
    }
}

/// Something that is met and counted.
#[derive(Clone, Copy, Debug, PartialEq, Eq, PartialOrd, Ord)]
pub enum Met {
    /// A trace whose first broken constraint has this number.
    Constraint(u8),
    /// A call that gives what it is asked for; of the checker, a trace that is accepted.
    Answer(Call),
    /// A call that is refused by this number.
    Refusal(Call, u8),
    /// A step that finds no whole cycle and stays.
    Stay,
    /// A kind of damage to a trace or to a list.
    Damage(&'static str),
    /// The character at which a line of a list leaves the form, or none if the text ends there.
    Stop(Option<u8>),
    /// A trace or a list of so many cycles.
    Cycles(Source, usize),
    /// A trace or a list of so many contexts.
    Contexts(Source, usize),
    /// A trace or a list with instructions in bounds and out of bounds.
    BothKinds(Source),
    /// A trace or a list of at least so many contexts as a crowd has.
    Crowd(Source),
    /// A trace or a list with a context that stands so to those before it.
    Meeting(Source, Meeting),
    /// A trace in whose first, last or other cycle this constraint is the first that is broken.
    Broken(Place, u8),
    /// A trace whose first cycle that is not as it is made again stands there, is of this kind, and differs in that row
    /// first.
    Differs(Place, Line, Kind),
    /// A trace that ends in a cycle of this kind and is right up to there.
    Cut(Kind),
    /// A trace whose first wrong cycle is of this kind and right by itself.
    Misplaced(Misplaced, Kind),
    /// A trace whose first wrong cycle is right by itself, of a context that shares its remainder by 1,024 with another
    /// that came since.
    MisplacedSharing(Misplaced),
}

/// The places of a cycle.
pub const PLACES: [Place; 3] = [Place::First, Place::Middle, Place::Last];
/// The kinds of a cycle.
pub const KINDS: [Kind; 2] = [Kind::Within, Kind::Beyond];

/// How often each thing was met.
#[derive(Debug, Default, PartialEq, Eq)]
pub struct Tally {
    hits: BTreeMap<Met, u64>,
}

impl Tally {
    /// Counts what was met.
    pub fn enter(&mut self, met: Met) {
        *self.hits.entry(met).or_default() += 1;
    }

    /// Counts what the claims of a trace or a list show.
    pub fn enter_claims(&mut self, source: Source, claims: &[Claim]) {
        self.enter(Met::Cycles(source, claims.len()));
        if !claims.is_empty() {
            let contexts: BTreeSet<u32> = claims.iter().map(|claim| claim.cn).collect();
            self.enter(Met::Contexts(source, contexts.len()));
            if contexts.len() >= CROWD {
                self.enter(Met::Crowd(source));
            }
        }
        for meeting in meetings(claims.iter().map(|claim| claim.cn)) {
            self.enter(Met::Meeting(source, meeting));
        }
        if claims.iter().any(Claim::in_bounds) && !claims.iter().all(Claim::in_bounds) {
            self.enter(Met::BothKinds(source));
        }
    }

    /// Counts where a wrong trace can no longer be made again, and its first broken constraint.
    pub fn enter_stop(&mut self, stop: &Stop, constraint: u8) {
        for &place in &stop.places {
            self.enter(Met::Broken(place, constraint));
            if let Cause::Differs(line) = stop.cause {
                self.enter(Met::Differs(place, line, stop.kind));
            }
        }
        if stop.cause == Cause::Cut {
            self.enter(Met::Cut(stop.kind));
        }
        if let Some(misplaced) = stop.misplaced {
            self.enter(Met::Misplaced(misplaced, stop.kind));
            if stop.shares {
                self.enter(Met::MisplacedSharing(misplaced));
            }
        }
    }

    /// Adds what another tally holds.
    pub fn add(&mut self, other: Tally) {
        for (met, hits) in other.hits {
            *self.hits.entry(met).or_default() += hits;
        }
    }

    /// Everything that has to be met was met often enough; in proportion, if there were fewer traces, lists or crowds
    /// than by default.
    pub fn enough(&self, trials: Trials) -> Outcome<()> {
        let of_default = trials.of_default();
        let in_proportion = |(met, least)| (met, (least as f64 * of_default) as u64);
        match wanted().map(in_proportion).find(|&(met, least)| self.count(met) < least) {
            Some((met, least)) => {
                let hits = self.count(met);
                Err(format!("{met:?} was met {hits} times in {trials}, fewer than {least}:\n{self}"))
            }
            None => Ok(()),
        }
    }

    /// How often something was met.
    pub fn count(&self, met: Met) -> u64 {
        self.hits.get(&met).copied().unwrap_or(0)
    }

    /// The least and the largest of the numbers that things met have, 0 if none has one.
    pub fn ends(&self, number: impl Fn(Met) -> Option<usize>) -> (usize, usize) {
        let numbers = || self.hits.keys().filter_map(|&met| number(met));
        (numbers().min().unwrap_or(0), numbers().max().unwrap_or(0))
    }
}

/// All that has to be met by the default number of traces and lists, and how often.
fn wanted() -> impl Iterator<Item = (Met, u64)> {
    let constraints = (1..=CONSTRAINTS).map(Met::Constraint);
    let answers = Call::ALL.into_iter().map(Met::Answer);
    let refusals = Call::ALL.into_iter().flat_map(|call| call.refusals().iter().map(move |&no| Met::Refusal(call, no)));
    let damages = damages().map(Met::Damage);
    let reach = [Source::Traces, Source::Lists].into_iter().flat_map(|source| {
        let cycles = [0, MOST_CYCLES].map(|cycles| Met::Cycles(source, cycles));
        let contexts = [1, MOST_CONTEXTS].map(|contexts| Met::Contexts(source, contexts));
        let meetings = Meeting::all().map(move |meeting| Met::Meeting(source, meeting));
        cycles.into_iter().chain(contexts).chain([Met::BothKinds(source), Met::Crowd(source)]).chain(meetings)
    });
    let often = constraints.chain(answers).chain(refusals).chain([Met::Stay]).chain(damages).chain(reach);
    let often = often.chain(wanted_stops());
    // There are too many characters to meet each often.
    let stops = (0..=u8::MAX).map(Some).chain([None]).map(|character| (Met::Stop(character), 1));
    often.map(|met| (met, LEAST_HITS)).chain(stops)
}

/// The places of cycles, kinds and rows at which a wrong trace has to stop being made again, and each constraint in
/// each place where it can be the first that is broken.
fn wanted_stops() -> impl Iterator<Item = Met> {
    let broken = PLACES.into_iter().flat_map(|place| {
        let can_be_first = move |&constraint: &u8| can_be_broken(constraint, place);
        (1..=CONSTRAINTS).filter(can_be_first).map(move |constraint| Met::Broken(place, constraint))
    });
    let differs = PLACES.into_iter().flat_map(|place| {
        let lines = [Line::First, Line::Second, Line::Last].into_iter();
        lines.flat_map(move |line| KINDS.map(|kind| Met::Differs(place, line, kind)))
    });
    let misplaced = Misplaced::ALL.into_iter().flat_map(|what| KINDS.map(|kind| Met::Misplaced(what, kind)));
    let sharing = Misplaced::ALL.map(Met::MisplacedSharing);
    broken.chain(differs).chain(KINDS.map(Met::Cut)).chain(misplaced).chain(sharing)
}

/// Whether a constraint can be the first that is broken in a cycle at a place: 2 and 6 are of rows before which there
/// is no instruction, 26 is of the last row.
pub fn can_be_broken(constraint: u8, place: Place) -> bool {
    match constraint {
        2 | 6 => place == Place::First,
        26 => place == Place::Last,
        _ => true,
    }
}

/// The names of all kinds of damage.
fn damages() -> impl Iterator<Item = &'static str> {
    damage::names().chain(list_damage::names())
}

#[cfg(test)]
mod tests {
    use super::*;
    use crate::options::DEFAULT_TRIALS;

    /// A tally in which everything was met as often as it has to be, but for one thing that was met `hits` times.
    fn just_enough_but(met: Met, hits: u64) -> Tally {
        let mut tally = Tally { hits: wanted().collect() };
        tally.hits.insert(met, hits);
        tally
    }

    #[test]
    fn everything_wanted_has_to_be_met_often_enough() {
        for (met, least) in wanted() {
            assert_eq!(just_enough_but(met, least).enough(DEFAULT_TRIALS), Ok(()));
            assert!(just_enough_but(met, least - 1).enough(DEFAULT_TRIALS).is_err(), "{met:?}");
            let more = Trials { traces: u64::MAX, lists: u64::MAX, crowds: u64::MAX };
            assert!(just_enough_but(met, least - 1).enough(more).is_err(), "{met:?}");
        }
    }

    #[test]
    fn each_constraint_and_each_refusal_is_wanted_50_times() {
        let wanted_often = |met| wanted().any(|wanted| wanted == (met, 50));
        assert!((1..=26).all(|number| wanted_often(Met::Constraint(number))));
        let some_call = |number| Call::ALL.iter().any(|&call| wanted_often(Met::Refusal(call, number)));
        assert!((1..=14).all(some_call));
    }

    #[test]
    fn fewer_trials_have_to_meet_less() {
        let met = Met::Constraint(1);
        let Trials { traces, lists, crowds } = DEFAULT_TRIALS;
        for fewer in [
            Trials { traces: traces / 2, ..DEFAULT_TRIALS },
            Trials { lists: lists / 2, ..DEFAULT_TRIALS },
            Trials { crowds: crowds / 2, ..DEFAULT_TRIALS },
        ] {
            assert_eq!(just_enough_but(met, 25).enough(fewer), Ok(()));
            assert!(just_enough_but(met, 24).enough(fewer).is_err());
        }
        assert_eq!(Tally::default().enough(Trials { traces: 1, ..DEFAULT_TRIALS }), Ok(()));
    }

    #[test]
    fn each_constraint_is_wanted_where_it_can_be_the_first() {
        let wanted = |place, constraint| wanted().any(|(met, _)| met == Met::Broken(place, constraint));
        let places = |constraint| PLACES.into_iter().filter(|&place| wanted(place, constraint)).count();
        assert_eq!((1..=26).map(places).sum::<usize>(), 3 * 23 + 3);
        assert!(wanted(Place::First, 2) && wanted(Place::First, 6) && wanted(Place::Last, 26));
    }

    #[test]
    fn a_stop_is_counted_at_each_place_where_its_cycle_stands() {
        let alone = Stop {
            rows: 1..3,
            kind: Kind::Within,
            places: vec![Place::First, Place::Last],
            cause: Cause::Differs(Line::Second),
            misplaced: Some(Misplaced::Stamp),
            shares: true,
        };
        let mut tally = Tally::default();
        tally.enter_stop(&alone, 3);
        tally.enter_stop(&Stop { cause: Cause::Cut, misplaced: None, places: vec![Place::Last], ..alone }, 26);
        let met = [
            Met::Broken(Place::First, 3),
            Met::Broken(Place::Last, 3),
            Met::Broken(Place::Last, 26),
            Met::Differs(Place::First, Line::Second, Kind::Within),
            Met::Differs(Place::Last, Line::Second, Kind::Within),
            Met::Cut(Kind::Within),
            Met::Misplaced(Misplaced::Stamp, Kind::Within),
            Met::MisplacedSharing(Misplaced::Stamp),
        ];
        assert_eq!(tally.hits, met.into_iter().map(|met| (met, 1)).collect());
    }

    #[test]
    fn no_two_kinds_of_damage_have_one_name() {
        let names: BTreeSet<&str> = damages().collect();
        assert_eq!(names.len(), damages().count());
    }
}

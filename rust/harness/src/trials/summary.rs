//! The summary of a tally: tables of the hits by constraint, by refusal and by damage, where wrong traces go wrong, how
//! far traces and lists reach, and what contexts they have.

use std::fmt::{Display, Formatter, Result};

use crate::trials::meetings::Meeting;
use crate::trials::remade::{Kind, Line, Misplaced, Place};
use crate::trials::tally::{CONSTRAINTS, Call, KINDS, Met, PLACES, Source, Tally, can_be_broken};
use crate::trials::{damage, list_damage};

/// The refusals are numbered from 1 to this.
const REFUSALS: u8 = 14;
/// So many constraints stand in a line.
const CONSTRAINTS_IN_A_LINE: usize = 13;
/// So many ways in which contexts stand to others stand in a line.
const MEETINGS_IN_A_LINE: usize = 2;
/// So many kinds of damage stand in a line.
const DAMAGES_IN_A_LINE: usize = 3;

impl Display for Tally {
    fn fmt(&self, out: &mut Formatter<'_>) -> Result {
        write_constraints(self, out)?;
        write_refusals(self, out)?;
        write_damages(self, "to traces", damage::names(), out)?;
        write_damages(self, "to lists", list_damage::names(), out)?;
        write_lines(self, out)?;
        write_misplaced(self, out)?;
        write_reach(self, Source::Traces, out)?;
        write_reach(self, Source::Lists, out)?;
        write_meetings(self, out)?;
        write_stops(self, out)
    }
}

fn write_constraints(tally: &Tally, out: &mut Formatter<'_>) -> Result {
    let constraints: Vec<u8> = (1..=CONSTRAINTS).collect();
    for numbers in constraints.chunks(CONSTRAINTS_IN_A_LINE) {
        write_line(out, "constraint", numbers)?;
        write_line(out, "first", numbers.iter().map(|&number| tally.count(Met::Constraint(number))))?;
        for place in PLACES {
            let broken = |&number: &u8| match can_be_broken(number, place) {
                true => tally.count(Met::Broken(place, number)).to_string(),
                false => String::new(),
            };
            write_line(out, cycle_at(place), numbers.iter().map(broken))?;
        }
    }
    Ok(())
}

fn cycle_at(place: Place) -> &'static str {
    match place {
        Place::First => "cycle 1",
        Place::Middle => "others",
        Place::Last => "the last",
    }
}

/// Where the first cycle that is not as it is made again stands, and the row in which it differs first.
fn write_lines(tally: &Tally, out: &mut Formatter<'_>) -> Result {
    for kind in KINDS {
        let of_place = |place| {
            let lines = [Line::First, Line::Second, Line::Last];
            lines.map(|line| tally.count(Met::Differs(place, line, kind)).to_string()).join(", ")
        };
        let places = PLACES.map(|place| format!("{} {}", cycle_at(place), of_place(place))).join("; ");
        let cut = tally.count(Met::Cut(kind));
        writeln!(out, "First row that differs, {} (first, second, last row): {places}; cut {cut}", name_of(kind))?;
    }
    Ok(())
}

fn name_of(kind: Kind) -> &'static str {
    match kind {
        Kind::Within => "in bounds",
        Kind::Beyond => "out of bounds",
    }
}

/// Whole cycles that are wrong in one thing: in bounds, out of bounds, and those of both whose context shares its
/// remainder.
fn write_misplaced(tally: &Tally, out: &mut Formatter<'_>) -> Result {
    let misplaced = Misplaced::ALL.map(|what| {
        let [within, beyond] = KINDS.map(|kind| tally.count(Met::Misplaced(what, kind)));
        format!("{what:?} {within}, {beyond}, {}", tally.count(Met::MisplacedSharing(what)))
    });
    writeln!(out, "Whole cycles out of place (in bounds, out of bounds, sharing an entry): {}", misplaced.join("; "))
}

/// How contexts stand to those before them, in how many traces and in how many lists.
fn write_meetings(tally: &Tally, out: &mut Formatter<'_>) -> Result {
    let counts = |met: &dyn Fn(Source) -> Met| {
        let [traces, lists] = [Source::Traces, Source::Lists].map(|source| tally.count(met(source)));
        format!("{traces:>8}{lists:>8}")
    };
    let crowd = format!("  {:<38}{}", "one of more than 1,024", counts(&Met::Crowd));
    let meetings = Meeting::all().map(|meeting| {
        let name = meeting.to_string();
        format!("  {name:<38}{}", counts(&|source| Met::Meeting(source, meeting)))
    });
    let all: Vec<String> = meetings.chain([crowd]).collect();
    all.chunks(MEETINGS_IN_A_LINE).try_for_each(|line| writeln!(out, "context, traces, lists{}", line.concat()))
}

/// A line for each call: how often it gave what it was asked for, and how often it was refused by each number.
fn write_refusals(tally: &Tally, out: &mut Formatter<'_>) -> Result {
    let numbers = (1..=REFUSALS).map(|number| number.to_string());
    write_line(out, "refusal", ["none".into()].into_iter().chain(numbers))?;
    for call in Call::ALL {
        let refused = |number| match call.refusals().contains(&number) {
            true => tally.count(Met::Refusal(call, number)).to_string(),
            false => String::new(),
        };
        let given = tally.count(Met::Answer(call)).to_string();
        write_line(out, &format!("{call:?}"), [given].into_iter().chain((1..=REFUSALS).map(refused)))?;
    }
    writeln!(out, "Steps that find no whole cycle: {}", tally.count(Met::Stay))
}

fn write_damages(
    tally: &Tally,
    head: &str,
    names: impl Iterator<Item = &'static str>,
    out: &mut Formatter<'_>,
) -> Result {
    let damages: Vec<String> = names.map(|name| format!("  {name:<34}{:>8}", tally.count(Met::Damage(name)))).collect();
    damages.chunks(DAMAGES_IN_A_LINE).try_for_each(|line| writeln!(out, "damage {head:<9}{}", line.concat()))
}

/// The fewest and the most cycles and contexts.
fn write_reach(tally: &Tally, source: Source, out: &mut Formatter<'_>) -> Result {
    let (least_cycles, most_cycles) = tally.ends(|met| match met {
        Met::Cycles(of, cycles) if of == source => Some(cycles),
        _ => None,
    });
    let (fewest, most) = tally.ends(|met| match met {
        Met::Contexts(of, contexts) if of == source => Some(contexts),
        _ => None,
    });
    let both = tally.count(Met::BothKinds(source));
    write!(out, "{source:?} of {least_cycles} to {most_cycles} cycles and of {fewest} to {most} contexts, ")?;
    writeln!(out, "{both} with both kinds of cycles")
}

fn write_stops(tally: &Tally, out: &mut Formatter<'_>) -> Result {
    let stops = (0..=u8::MAX).filter(|&character| tally.count(Met::Stop(Some(character))) > 0).count();
    let ends = tally.count(Met::Stop(None));
    write!(out, "Lines leave the form at {stops} different characters, and {ends} times at the end of the text")
}

/// A line of a table: its head, and cells of one width.
fn write_line<T: Display>(out: &mut Formatter<'_>, head: &str, cells: impl IntoIterator<Item = T>) -> Result {
    let cells: String = cells.into_iter().map(|cell| format!("{cell:>8}")).collect();
    writeln!(out, "{head:<10}{}", cells.trim_end())
}

//! What was found, as text with tables.

use crate::case::{By, Case, Measured};
use crate::footprint::{STACK_FLOOR, STACK_TARGET};
use crate::machine;
use crate::plan::{GROWING_ROWS, GROWTH};
use crate::run::{Found, library_times, reference_times, spread};
use crate::timing::Budget;

/// All that a run over everything found.
pub fn everything(found: &Found) -> String {
    let sections = [
        ("The machine and the time", machine::description() + &time(found.budget)),
        ("The calls beside the reference", calls(&found.calls)),
        ("Growth, on a block of calls", growth(&found.growth)),
        ("Beside reading the bytes once", reading(&found.reading)),
        ("Memory beside what is lent", memory(found)),
    ];
    sections.map(|(title, text)| format!("### {title}\n\n{text}")).join("\n")
}

fn time(Budget { passes, time, rounds }: Budget) -> String {
    format!("- passes over all cases: {passes}, in each for every case at least {time:?} and {rounds} rounds\n")
}

/// The calls beside the reference.
pub fn calls(calls: &[Measured]) -> String {
    let head =
        ["case", "call", "input", "size", "library", "reference", "ratio", "library a second", "floor", "target"];
    table(&head, calls.iter().map(|measured| call(measured, calls)).collect())
}

fn call(measured: &Measured, run: &[Measured]) -> Vec<String> {
    let Measured { case, times, units, unit } = measured;
    let [library, reference] = [times.library, times.other].map(|time| nanoseconds(measured.per_unit(time), unit));
    let a_second = *units as f64 / times.library.as_secs_f64() / 1e6;
    let [floor, target] = bounds(measured, run);
    vec![
        format!("`{}`", case.name()),
        case.call.names().1.into(),
        case.input.names().1.into(),
        format!("{} {unit}s", grouped(*units)),
        library,
        reference,
        format!("{:.2}", measured.ratio()),
        format!("{a_second:.2} million {unit}s"),
        floor,
        target,
    ]
}

/// The floor and the target of a call, and whether they are kept and met.
fn bounds(measured: &Measured, run: &[Measured]) -> [String; 2] {
    let Some((by, bounds)) = measured.case.bounds else { return Default::default() };
    let found = measured.ratio_by(by, run);
    let of = match by {
        By::Reference => String::new(),
        By::OneContext => format!(" times `{}`", measured.case.on_one_context().name()),
    };
    // The ratio itself stands beside it, unless it is by another case.
    let beside = match found {
        Some(found) if by == By::OneContext => format!(" ({found:.2})"),
        _ => String::new(),
    };
    let floor = found.map_or("not measured", |found| kept(bounds.keeps_floor(found)));
    let target = found.map_or("not measured", |found| met(bounds.meets_target(found)));
    [format!("at most {}{of}: {floor}{beside}", bounds.floor), format!("at most {}{of}: {target}", bounds.target)]
}

fn kept(is_kept: bool) -> &'static str {
    if is_kept { "kept" } else { "missed" }
}

fn met(is_met: bool) -> &'static str {
    if is_met { "met" } else { "missed" }
}

fn growth(growth: &[Vec<Measured>]) -> String {
    let sizes = GROWING_ROWS.map(|rows| format!("{} rows", grouped(rows)));
    let sizes = sizes.each_ref().map(String::as_str);
    let head = [&["call", "side"], &sizes[..], &["largest by smallest", "floor", "target"]].concat();
    let rows = growth.iter().flat_map(|sizes| {
        let call = sizes[0].case.call.names().1;
        let [library, reference] = [library_times(sizes), reference_times(sizes)];
        [growth_of(call, "library", &library, true), growth_of(call, "reference", &reference, false)]
    });
    table(&head, rows.collect())
}

fn growth_of(call: &str, side: &str, by_size: &[f64], is_bounded: bool) -> Vec<String> {
    let found = spread(by_size);
    let [floor, target] = if is_bounded {
        let (kept, met) = (kept(GROWTH.keeps_floor(found)), met(GROWTH.meets_target(found)));
        [format!("at most {}: {kept}", GROWTH.floor), format!("at most {}: {met}", GROWTH.target)]
    } else {
        Default::default()
    };
    let by_size = by_size.iter().map(|&time| nanoseconds(time, "row"));
    [call.into(), side.into()].into_iter().chain(by_size).chain([format!("{found:.2}"), floor, target]).collect()
}

fn reading(reading: &[Measured]) -> String {
    let rows = reading.iter().map(|measured| {
        let Measured { case, times, unit, .. } = measured;
        let [library, reading] = [times.library, times.other].map(|time| nanoseconds(measured.per_unit(time), unit));
        let Case { call, input, .. } = case;
        vec![call.names().1.into(), input.names().1.into(), library, reading, format!("{:.1}", measured.ratio())]
    });
    table(&["call", "input", "library", "reading the trace once", "library by reading"], rows.collect())
}

fn memory(found: &Found) -> String {
    let rows = found.footprints.iter().map(|(call, footprint)| {
        let stack = footprint.stack;
        let under = |most: usize, told: &str| format!("under {} bytes: {told}", grouped(most));
        let floor = under(STACK_FLOOR, kept(footprint.keeps_stack_floor()));
        let target = under(STACK_TARGET, met(stack < STACK_TARGET));
        let allocations = footprint.allocations.to_string();
        vec![call.to_string(), format!("{} bytes", grouped(stack)), floor, target, allocations]
    });
    table(&["call", "stack", "floor", "target", "allocations"], rows.collect())
}

/// A table with a head.
fn table(head: &[&str], rows: Vec<Vec<String>>) -> String {
    let line = |cells: &[String]| format!("| {} |\n", cells.join(" | "));
    let head: Vec<String> = head.iter().map(|&name| name.into()).collect();
    let rule = format!("|{}\n", "---|".repeat(head.len()));
    [line(&head), rule].into_iter().chain(rows.iter().map(|row| line(row))).collect()
}

fn nanoseconds(time: f64, unit: &str) -> String {
    format!("{time:.2} ns/{unit}")
}

/// A number with a comma before every three digits.
fn grouped(number: usize) -> String {
    match number {
        0..1_000 => number.to_string(),
        _ => format!("{},{:03}", grouped(number / 1_000), number % 1_000),
    }
}

#[cfg(test)]
mod tests {
    use super::*;
    use crate::plan;
    use crate::timing::Times;
    use std::time::Duration;

    #[test]
    fn digits_are_grouped() {
        let numbers = [0, 999, 1_000, 65_536, 4_194_304].map(grouped);
        assert_eq!(numbers, ["0", "999", "1,000", "65,536", "4,194,304"]);
    }

    #[test]
    fn a_table_has_a_rule_under_its_head() {
        let rows = vec![vec!["1".into(), "2".into()]];
        assert_eq!(table(&["a", "b"], rows), "| a | b |\n|---|---|\n| 1 | 2 |\n");
    }

    #[test]
    fn growth_is_told_with_its_bounds() {
        let row = growth_of("check", "library", &[2.0, 2.7], true);
        assert_eq!(row[4..], ["1.35", "at most 1.3: missed", "at most 1.15: missed"]);
        let row = growth_of("check", "library", &[2.0, 2.3], true);
        assert_eq!(row[4..], ["1.15", "at most 1.3: kept", "at most 1.15: met"]);
        assert_eq!(growth_of("check", "reference", &[2.0, 2.7], false)[4..], ["1.35", "", ""]);
    }

    #[test]
    fn bounds_by_one_context_are_told_with_their_ratio() {
        let measured = |name: &str, library| {
            let case = plan::all().into_iter().find(|case| case.name() == name).expect("there is such a case");
            let [library, other] = [library, 100].map(Duration::from_millis);
            Measured { case, times: Times { library, other }, units: 1, unit: "row" }
        };
        let run = [measured("check:one", 50), measured("check:rising", 60)];
        assert_eq!(bounds(&run[0], &run), ["at most 0.55: kept", "at most 0.4: missed"]);
        let told = ["at most 1.5 times `check:one`: kept (1.20)", "at most 1.1 times `check:one`: missed"];
        assert_eq!(bounds(&run[1], &run), told);
        let told = ["at most 1.5 times `check:one`: not measured", "at most 1.1 times `check:one`: not measured"];
        assert_eq!(bounds(&run[1], &run[1..]), told);
        assert_eq!(bounds(&measured("walk:one", 50), &run), ["", ""]);
    }
}

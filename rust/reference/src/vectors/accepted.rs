//! Vectors that are accepted: right traces of every kind, up to the longest that `verify` reads.

use super::Vector;
use super::scenes::{
    LONGEST, beyond, far_end, grown, grown_by_end2, kept, longest_beyond, longest_in_bounds, many_contexts, past_bound,
    tour,
};
use crate::claim::Claim;
use crate::cycle::{BOUND, State};
use crate::draft::Draft;
use crate::wide::Wide;

pub fn vectors() -> Vec<Vector> {
    [empty_rows(), ends(), contexts(), stories(), longest()].concat()
}

fn empty_rows() -> Vec<Vector> {
    let empty = |rows| Draft::new(rows, &[]);
    vec![
        empty(1).holds("accepted_1_empty_row", 0, 0, 1),
        empty(2).holds("accepted_2_empty_rows", 0, 0, 2),
        empty(LONGEST).holds("accepted_574_empty_rows", 0, 0, 574),
    ]
}

/// Each end as the first, as the second and as both, at the start of a context and after 33 bytes.
fn ends() -> Vec<Vector> {
    let one = Wide::from(1u8);
    let table: [(&str, Wide, u32); 11] = [
        ("0", Wide::ZERO, 0),
        ("1", one, 0),
        ("31", 31u8.into(), 0),
        ("32", 32u8.into(), 0),
        ("33", 33u8.into(), 0),
        ("705", 705u32.into(), 0),
        ("2_to_24_less_1", BOUND.wrapping_sub(one), 0),
        ("2_to_24", BOUND, 1),
        ("2_to_128", Wide::power_of_two(128), 1),
        ("2_to_129_less_2", Wide::power_of_two(129).wrapping_sub(2u8.into()), 1),
        ("2_to_136_less_1", Wide::MAX, 1),
    ];
    let mut vectors = Vec::new();
    for (what, end, oob) in table {
        for (place, end1, end2) in [("end1", end, Wide::ZERO), ("end2", Wide::ZERO, end), ("both_ends", end, end)] {
            let claim = Claim { cn: 1, end1, end2 };
            let first = Draft::new(1, &[claim]);
            vectors.push(first.holds(format!("accepted_{place}_{what}"), 1, oob, 1));
            let later = Draft::new(1, &[Claim::small(1, 33, 0), claim]);
            vectors.push(later.holds(format!("accepted_{place}_{what}_after_33_bytes"), 2, oob, 1));
        }
    }
    vectors
}

fn far(cn: u32) -> Claim {
    Claim { cn, end1: Wide::ZERO, end2: far_end() }
}

/// Contexts that call each other and go on where they stood.
fn contexts() -> Vec<Vector> {
    let claims = |list: &[(u32, u32, u32)]| -> Vec<Claim> {
        list.iter().map(|&(cn, end1, end2)| Claim::small(cn, end1, end2)).collect()
    };
    let returning = claims(&[(1, 64, 0), (2, 704, 32), (2, 0, 736), (1, 96, 0)]);
    let calling = claims(&[(1, 64, 0), (2, 32, 0), (3, 96, 0), (2, 33, 0)]);
    let back = claims(&[(1, 65, 0), (3, 97, 0), (2, 1, 1)]);
    let nested = [calling, vec![far(3)], back].concat();
    let alike = [1, 0x0100_0001, 0x0001_0001, 0x0101, u32::MAX].repeat(2);
    let long_absent = many_contexts().then(&Claim::small(1, 960, 0), State { mem: 64, cost: 6 });
    let alike: Vec<Claim> = alike.into_iter().zip(1..).map(|(cn, step)| Claim::small(cn, step * 100, 0)).collect();
    vec![
        Draft::new(1, &returning).holds("accepted_call_that_returns", 4, 0, 1),
        Draft::new(1, &nested).holds("accepted_calls_within_calls", 8, 1, 1),
        Draft::new(5, &nested).holds("accepted_after_5_empty_rows", 8, 1, 5),
        Draft::new(1, &alike).holds("accepted_contexts_alike_in_some_bytes", 10, 0, 1),
        long_absent.holds("accepted_context_back_after_189_others", 191, 0, 1),
    ]
}

fn stories() -> Vec<Vector> {
    let small = Claim::small;
    let at_bound = Claim { cn: 2, end1: BOUND, end2: Wide::ZERO };
    let sample = [small(1, 32, 0), small(2, 1, 0), small(1, 705, 0), small(1, 0, 0), small(2, 0, 64), at_bound];
    let carried = [small(1, 64, 0), far(1), small(1, 65, 0), far(1), far(1), small(1, 64, 0)];
    let greedy = [small(1, 0xff_ffff, 0), small(1, 0, 0xff_ffff), small(1, 0, 0), small(2, 0, 1)];
    let both_far = Claim { cn: 1, end1: past_bound(9), end2: past_bound(5) };
    vec![
        Draft::new(1, &sample).holds("accepted_sample_of_the_document", 6, 1, 1),
        Draft::new(1, &carried).holds("accepted_out_of_bounds_carries_state_on", 6, 3, 1),
        Draft::new(1, &greedy).holds("accepted_all_memory_reached", 4, 0, 1),
        Draft::new(1, &[both_far]).holds("accepted_both_ends_out_of_bounds", 1, 1, 1),
        Draft::new(1, &[small(1, 1, 0)]).holds("accepted_first_byte_stored", 1, 0, 1),
        grown().holds("accepted_grown", 2, 0, 1),
        grown_by_end2().holds("accepted_grown_by_end2", 2, 0, 1),
        kept().holds("accepted_kept", 2, 0, 1),
        beyond().holds("accepted_beyond", 2, 1, 1),
        tour().holds("accepted_tour", 3, 1, 2),
    ]
}

/// Exactly as many rows as `verify` reads.
fn longest() -> Vec<Vector> {
    vec![
        longest_in_bounds().holds("accepted_574_rows_in_bounds", 191, 0, 1),
        longest_beyond(13).holds("accepted_574_rows_out_of_bounds", 33, 33, 13),
    ]
}

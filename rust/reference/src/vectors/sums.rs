//! Vectors for 10 to 14: bytes that sum up, broken by the byte or by the sum, at each place of a cycle.

use super::Vector;
use super::scenes::{SECOND, Scene, beyond, grown, kept};
use crate::row::Column;
use crate::sum::{ACC1, ACC2, DACC, EACC, Q1ACC, Q2ACC, Sum};
use crate::wide::Wide;

/// The sums with the constraints that demand them.
const DEMANDED: [(u8, Sum); 6] = [(10, ACC1), (11, ACC2), (12, DACC), (13, EACC), (14, Q1ACC), (14, Q2ACC)];

pub fn vectors() -> Vec<Vector> {
    [
        broken_in(("grown", grown), &DEMANDED, &[0, 1, 2]),
        broken_in(("kept", kept), &DEMANDED[..4], &[0, 1, 2]),
        broken_in(("beyond", beyond), &DEMANDED[..1], &[0, 1, 2, 8, 16]),
        carried_over(),
    ]
    .concat()
}

/// Each sum broken at each of some places in a scene's second instruction.
fn broken_in(scene: Scene, demanded: &[(u8, Sum)], cts: &[usize]) -> Vec<Vector> {
    let mut vectors = Vec::new();
    for &(constraint, sum) in demanded {
        for &ct in cts {
            vectors.extend(broken_at(scene, constraint, sum, ct));
        }
    }
    vectors
}

/// One vector for a wrong byte, one for a sum wrong in its lowest bit and one for a sum wrong in its highest.
fn broken_at((scene, draft): Scene, constraint: u8, sum: Sum, ct: usize) -> [Vector; 3] {
    let row = SECOND + ct;
    let edits = [
        (sum.byte, "", Wide::from(1u8)),
        (sum.acc, "", Wide::from(1u8)),
        (sum.acc, "_high_bit", sum.acc.highest_bit()),
    ];
    edits.map(|(column, what, step)| {
        let cell = column.name();
        let name = format!("c{constraint}_{cell}{what}_at_ct_{ct}_{scene}");
        let wrong = |value| moved(column, value, step);
        draft().change(row, column, wrong).breaks(name, row, constraint)
    })
}

/// A number `step` further up or, where the cell does not hold that, down.
fn moved(column: Column, value: Wide, step: Wide) -> Wide {
    let up = value.wrapping_add(step);
    if up > value && up <= column.largest() { up } else { value.wrapping_sub(step) }
}

/// At a cycle's start, sums that go on from the cycle before.
fn carried_over() -> Vec<Vector> {
    let carry = |&(constraint, sum): &(u8, Sum)| {
        let rows = grown().rows;
        let shifted = rows[SECOND - 1].get(sum.acc).checked_append(0);
        let shifted = shifted.expect("the sums before are small");
        let over = shifted.wrapping_add(rows[SECOND].get(sum.byte));
        let name = format!("c{constraint}_{}_goes_on_from_the_cycle_before", sum.acc.name());
        let draft = grown().set(SECOND, sum.acc, over);
        draft.breaks(name, SECOND, constraint)
    };
    DEMANDED.iter().map(carry).collect()
}

//! The maker and the checker put to each other: what is made is accepted, and nothing next to it is.

use reference::{BOUND, Claim, Draft, MAX_ROWS, Verdict, Wide, check, make};

/// Ends at the edges of words, of bytes and of the bound.
fn edges() -> Vec<Wide> {
    let one = Wide::from(1u8);
    let small = [0u32, 1, 31, 32, 33, 255, 256, 704, 705, 65_535, 65_536, 0x00ff_ffff].map(Wide::from);
    let large = [24, 32, 64, 128, 135].map(Wide::power_of_two);
    let next = large.map(|end| end.wrapping_add(one));
    [&small[..], &large, &next, &[Wide::MAX]].concat()
}

fn claims_of_all_pairs(cn: u32) -> Vec<Claim> {
    let pairs = edges().into_iter().flat_map(|end1| edges().into_iter().map(move |end2| (end1, end2)));
    pairs.map(|(end1, end2)| Claim { cn, end1, end2 }).collect()
}

/// What the checker must say of a made trace.
fn counts(empty_rows: usize, claims: &[Claim]) -> Verdict {
    Verdict::Accepted {
        instructions: claims.len() as u32,
        oob: claims.iter().filter(|claim| !claim.in_bounds()).count() as u32,
        empty: empty_rows as u32,
    }
}

#[test]
fn a_cycle_of_every_pair_of_ends_is_accepted_alone_and_after_another() {
    for claim in claims_of_all_pairs(1) {
        for before in edges() {
            let claims = [Claim { cn: 1, end1: before, end2: Wide::ZERO }, claim];
            assert_eq!(check(&make(1, &claims)), counts(1, &claims), "{claims:?}");
        }
    }
}

#[test]
fn long_traces_of_many_contexts_are_accepted() {
    let mut claims = claims_of_all_pairs(1);
    for (claim, step) in claims.iter_mut().zip(0..) {
        claim.cn = 1 + step % 11;
    }
    for empty_rows in 1..=5 {
        assert_eq!(check(&make(empty_rows, &claims)), counts(empty_rows, &claims));
    }
}

#[test]
fn rows_are_counted_up_to_the_limit() {
    let claims = vec![Claim::small(7, 64, 0); (MAX_ROWS - 1) / 3];
    assert_eq!(check(&make(1, &claims)), counts(1, &claims));
    assert_eq!(check(&make(2, &claims)), Verdict::Refused { number: 10 });
}

fn mixed() -> Draft {
    let far = Claim { cn: 1, end1: Wide::ZERO, end2: BOUND };
    Draft::new(1, &[Claim::small(1, 705, 33), far, Claim::small(2, 64, 64), Claim::small(1, 32, 700)])
}

#[test]
fn no_bit_of_a_right_trace_may_change() {
    let mut bytes = mixed().to_bytes();
    for at in 0..bytes.len() {
        for bit in 0..8 {
            bytes[at] ^= 1 << bit;
            assert!(matches!(check(&bytes), Verdict::Broken { .. }), "byte {at}, bit {bit}");
            bytes[at] ^= 1 << bit;
        }
    }
}

#[test]
fn a_trace_ends_only_between_cycles() {
    let rows = mixed().rows;
    for kept in 1..=rows.len() {
        let whole = kept == rows.len() || rows[kept].ct == 0;
        let verdict = check(&mixed().keep(0..kept).to_bytes());
        let cut = Verdict::Broken { row: kept as u32 - 1, constraint: 26 };
        assert_eq!(verdict == cut, !whole, "{kept} rows: {verdict:?}");
        assert_eq!(matches!(verdict, Verdict::Accepted { .. }), whole, "{kept} rows: {verdict:?}");
    }
}

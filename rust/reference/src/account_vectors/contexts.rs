//! Vectors for the contexts: each goes on from its own state, whatever has come between.

use super::{Meant, Vector, charged};
use crate::list_vectors::texts::{LARGEST, line};

pub fn vectors() -> Vec<Vector> {
    vec![
        call_that_returns(),
        calls_within_calls(),
        growth_after("return", "f3"),
        growth_after("revert", "fd"),
        growth_after_out_of_bounds(),
        out_of_bounds_first(),
        alike_in_some_digits(),
        long_absent(),
        a_context_each(),
    ]
}

/// An MSTORE.
fn mstore(cn: &str, at: &str) -> String {
    line([cn, "52", at, "0", "0", "0"])
}

/// An MLOAD out of bounds.
fn far(cn: &str) -> String {
    line([cn, "51", LARGEST, "0", "0", "0"])
}

/// Context 2 runs between two instructions of context 1, reaches further and returns.
fn call_that_returns() -> Vector {
    let list = [
        mstore("1", "0"),
        line(["1", "f1", "0", "4", "20", "20"]),
        mstore("2", "3e0"),
        line(["2", "f3", "0", "20", "0", "0"]),
        line(["1", "3e", "40", "1", "0", "0"]),
        line(["1", "59", "0", "0", "0", "0"]),
    ];
    let meant = [
        (1, 0, 32, 1, 3),
        (1, 0, 64, 2, 3),
        (2, 0, 1_024, 32, 98),
        (2, 0, 1_024, 32, 0),
        (1, 0, 65, 3, 3),
        (1, 0, 65, 3, 0),
    ];
    charged("call_that_returns", list.concat(), &meant)
}

/// Contexts 1, 2 and 3 in turn, three deep and back.
fn calls_within_calls() -> Vector {
    let list = [
        mstore("1", "0"),
        mstore("2", "20"),
        mstore("3", "40"),
        far("3"),
        mstore("2", "2a0"),
        far("1"),
        mstore("3", "41"),
        mstore("1", "20"),
    ];
    let meant = [
        (1, 0, 32, 1, 3),
        (2, 0, 64, 2, 6),
        (3, 0, 96, 3, 9),
        (3, 1, 96, 3, 0),
        (2, 0, 704, 22, 60),
        (1, 1, 32, 1, 0),
        (3, 0, 97, 4, 3),
        (1, 0, 64, 2, 3),
    ];
    charged("calls_within_calls", list.concat(), &meant)
}

/// What a context does after it has ended is taken as listed.
fn growth_after(what: &str, op: &str) -> Vector {
    let list = [mstore("1", "0"), line(["1", op, "0", "40", "0", "0"]), mstore("1", "40"), mstore("2", "0")];
    let meant = [(1, 0, 32, 1, 3), (1, 0, 64, 2, 3), (1, 0, 96, 3, 3), (2, 0, 32, 1, 3)];
    charged(format!("growth_after_{what}"), list.concat(), &meant)
}

fn growth_after_out_of_bounds() -> Vector {
    let list = [mstore("1", "0"), far("1"), mstore("1", "20"), far("1"), far("1"), mstore("1", "1")];
    let kept = (1, 1, 64, 2, 0);
    let meant = [(1, 0, 32, 1, 3), (1, 1, 32, 1, 0), (1, 0, 64, 2, 3), kept, kept, (1, 0, 64, 2, 0)];
    charged("growth_after_out_of_bounds", list.concat(), &meant)
}

fn out_of_bounds_first() -> Vector {
    let list = [far("1"), far("2"), mstore("2", "0"), mstore("1", "1")];
    let meant = [(1, 1, 0, 0, 0), (2, 1, 0, 0, 0), (2, 0, 32, 1, 3), (1, 0, 33, 2, 6)];
    charged("out_of_bounds_first", list.concat(), &meant)
}

/// Contexts whose numbers share most of their bytes, each twice.
fn alike_in_some_digits() -> Vector {
    let contexts = [1, 0x0100_0001, 0x0001_0001, 0x0101, 0x0100, 0x0100_0000, u32::MAX, u32::MAX - 1];
    let digits = contexts.map(|cn| format!("{cn:x}"));
    let list: String = ["0", "20"].iter().flat_map(|at| digits.iter().map(move |cn| mstore(cn, at))).collect();
    let first = contexts.map(|cn| (cn, 0, 32, 1, 3));
    let second = contexts.map(|cn| (cn, 0, 64, 2, 3));
    charged("contexts_alike_in_some_digits", list, &[first, second].concat())
}

/// Context 1 once more after 189 others.
fn long_absent() -> Vector {
    let contexts = 1..=190u32;
    let list: String = contexts.clone().map(|cn| mstore(&format!("{cn:x}"), "20")).collect();
    let mut meant: Vec<Meant> = contexts.map(|cn| (cn, 0, 64, 2, 6)).collect();
    meant.push((1, 0, 96, 3, 3));
    charged("context_back_after_189_others", list + &mstore("1", "40"), &meant)
}

/// As many contexts as there is room for, from the largest number down.
fn a_context_each() -> Vector {
    let contexts = (0..191).map(|step| u32::MAX - step);
    let list: String = contexts.clone().map(|cn| mstore(&format!("{cn:x}"), "0")).collect();
    let meant: Vec<Meant> = contexts.map(|cn| (cn, 0, 32, 1, 3)).collect();
    charged("context_for_each_of_191_instructions", list, &meant)
}

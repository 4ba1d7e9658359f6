//! Vectors for the opcodes: each that is listed with its ends, and others, near them and far.

use super::texts::line;
use super::{Vector, reads, refused};

pub fn vectors() -> Vec<Vector> {
    [nothing(), fixed(), one_range(), two_ranges(), not_listed()].concat()
}

fn nothing() -> Vec<Vector> {
    vec![reads("opcode_59_msize", line(["5", "59", "0", "0", "0", "0"]), &[(5, "0", "0")])]
}

fn fixed() -> Vec<Vector> {
    let each = [("51", "mload", "1254"), ("52", "mstore", "1254"), ("53", "mstore8", "1235")];
    let vector = |(op, name, end)| {
        reads(format!("opcode_{op}_{name}"), line(["5", op, "1234", "0", "0", "0"]), &[(5, end, "0")])
    };
    each.map(vector).to_vec()
}

fn one_range() -> Vec<Vector> {
    let each = [
        ("20", "sha3"),
        ("37", "calldatacopy"),
        ("39", "codecopy"),
        ("3c", "extcodecopy"),
        ("3e", "returndatacopy"),
        ("a0", "log0"),
        ("a1", "log1"),
        ("a2", "log2"),
        ("a3", "log3"),
        ("a4", "log4"),
        ("f0", "create"),
        ("f3", "return"),
        ("f5", "create2"),
        ("fd", "revert"),
    ];
    let vector = |(op, name)| {
        reads(format!("opcode_{op}_{name}"), line(["5", op, "1234", "501", "0", "0"]), &[(5, "1735", "0")])
    };
    each.map(vector).to_vec()
}

fn two_ranges() -> Vec<Vector> {
    let each = [("f1", "call"), ("f2", "callcode"), ("f4", "delegatecall"), ("fa", "staticcall")];
    let vector = |(op, name)| {
        let text = line(["5", op, "1234", "501", "abcd", "e0f"]);
        reads(format!("opcode_{op}_{name}"), text, &[(5, "1735", "b9dc")])
    };
    each.map(vector).to_vec()
}

/// Opcodes that are not listed: MCOPY, STOP, SELFDESTRUCT, SLOAD, and the neighbours of those that are.
fn not_listed() -> Vec<Vector> {
    let others = ["5e", "00", "ff", "54"];
    let below = ["1f", "36", "38", "3b", "3d", "50", "58", "9f", "ef", "f9", "fc"];
    let above = ["21", "3a", "3f", "5a", "a5", "f6", "fb", "fe"];
    let swapped = ["02", "73", "93", "c3", "e3", "15", "25", "35", "95", "0a", "4a", "0f", "1f", "af", "df"];
    let mut ops = [&others[..], &below, &above, &swapped].concat();
    ops.sort_unstable();
    ops.dedup();
    let vector = |op| refused(format!("opcode_{op}_not_listed"), line(["5", op, "0", "0", "0", "0"]), 5, 1);
    ops.into_iter().map(vector).collect()
}

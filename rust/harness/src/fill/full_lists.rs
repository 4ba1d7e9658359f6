//! Lists of as many bytes as there may be, which are right in every line but have too many of them for a trace.

use reference::fill::MAX_LIST;
use reference::list::Fields;

/// The bytes of the shortest line.
const SHORTEST: usize = 37;
/// The bytes of the longest line.
const LONGEST: usize = 168;

/// Instructions of a few contexts as a run of a program has them.
pub fn typical() -> Vec<u8> {
    let ops = [0x52, 0x51, 0x52, 0x37, 0x20, 0x53, 0xa2, 0x59, 0xf1, 0x51, 0x52, 0xf3];
    filled(|step| {
        let at1 = (step * 761 % 0x3000) as u128;
        let cn = 1 + (step / 40 % 9) as u32;
        match ops[step % ops.len()] {
            op @ 0x59 => Fields { cn, op, ..Fields::default() },
            op @ 0x51..=0x53 => Fields { cn, op, at1, ..Fields::default() },
            op @ 0xf1 => Fields { cn, op, at1, len1: 0x44, at2: at1 + 0x80, len2: 0x20 },
            op => Fields { cn, op, at1, len1: 0x60, ..Fields::default() },
        }
    })
}

/// Lines in which every field is the largest.
pub fn largest() -> Vec<u8> {
    let most = u128::MAX;
    filled(|_| Fields { cn: u32::MAX, op: 0xfa, at1: most, len1: most, at2: most, len2: most })
}

/// Lines in which every field has as few digits as it may.
pub fn shortest() -> Vec<u8> {
    filled(|step| Fields { cn: 1 + (step % 15) as u32, op: 0x59, ..Fields::default() })
}

/// Lines one after another, with one or two at the end that make the list as long as it may be.
fn filled(fields: impl Fn(usize) -> Fields) -> Vec<u8> {
    let mut text = String::with_capacity(MAX_LIST);
    for step in 0.. {
        let room = MAX_LIST - text.len();
        if room <= LONGEST {
            text += &line_of(room);
            break;
        }
        let two_are_left = room <= LONGEST + SHORTEST;
        text += &if two_are_left { line_of(SHORTEST) } else { fields(step).to_string() };
    }
    assert_eq!(text.len(), MAX_LIST);
    text.into_bytes()
}

/// A line of so many bytes.
fn line_of(bytes: usize) -> String {
    let mut more = bytes - SHORTEST;
    let mut number = |most: usize| {
        let digits = more.min(most);
        more -= digits;
        "1".repeat(digits + 1)
    };
    let [at1, len1, at2, len2] = [(); 4].map(|()| number(31));
    let cn = number(7);
    format!("cn={cn} op=f1 at1={at1} len1={len1} at2={at2} len2={len2}\n")
}

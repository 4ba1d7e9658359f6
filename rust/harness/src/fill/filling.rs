//! One list put to both fillers, and the trace that comes of it to the checkers.

use std::array;

use mxp::raw::FillAnswer;
use reference::list::claims;
use reference::{Claim, ROW_BYTES, Refusal, Verdict};

use crate::Outcome;
use crate::check::compare as checkers;
use crate::fill::read_back::read_back;
use crate::library;
use crate::margins::{Lent, answered};

/// What a buffer holds before a call is repeated after so many bytes. It shares no factor with the bytes of a row, so
/// that a cell lies over other bytes from row to row.
const OLD_BLOCK: usize = 1_009;

/// What a filler comes to: the trace that it writes, or a refusal.
pub type Answer = Result<Vec<u8>, Refusal>;

/// What a filler is lent and told.
#[derive(Clone, Copy)]
pub struct Order<'a> {
    /// The list.
    pub list: &'a [u8],
    /// What stands behind the list, where a reader that goes on too far finds it.
    pub behind: &'a [u8],
    /// The count of empty rows.
    pub empty_rows: u64,
    /// The bytes of the buffer.
    pub room: usize,
}

impl Order<'_> {
    /// The claims of a list that is not refused.
    pub fn claims(&self) -> Outcome<Vec<Claim>> {
        claims(self.list).collect::<Result<_, _>>().map_err(|refusal| refusal.to_string())
    }

    /// Adds to a message what was lent and told.
    fn told(&self, error: String) -> String {
        let Order { list, empty_rows, room, .. } = self;
        format!("list of {} bytes, {empty_rows} empty rows, buffer of {room} bytes: {error}", list.len())
    }
}

/// The answer, if both fillers come to the same, the library has written the trace that the reference has and nothing
/// else, and that trace is accepted with the counts of the list.
pub fn compare(order: &Order) -> Outcome<Answer> {
    compare_untold(order).map_err(|error| order.told(error))
}

/// The same, and the instructions of the trace must come back from it as the lines have them.
pub fn compare_and_read_back(order: &Order) -> Outcome<Answer> {
    let answer = compare(order)?;
    if let Ok(trace) = &answer {
        order.claims().and_then(|claims| read_back(trace, &claims)).map_err(|error| order.told(error))?;
    }
    Ok(answer)
}

fn compare_untold(order: &Order) -> Outcome<Answer> {
    let mut trace = old_bytes(order.room, 0);
    let rows = reference::fill(order.list, order.empty_rows, &mut trace);
    trace.truncate(rows.unwrap_or(0) * ROW_BYTES);
    // No byte is the same in both buffers before the call: one that is not written though it should be shows in one of
    // them, and so does one that is written though it should stay.
    for flipped in [0, u8::MAX] {
        fill_over(&old_bytes(order.room, flipped), order, rows, &trace)?;
    }
    if rows.is_ok() {
        judge(&trace, order)?;
    }
    Ok(rows.map(|_| trace))
}

/// What a buffer holds before the call: bytes that differ from place to place, with some bits of each flipped.
fn old_bytes(room: usize, flipped: u8) -> Vec<u8> {
    let mixed = |place: usize| (place as u64 + 1).wrapping_mul(0x9e37_79b9_7f4a_7c15).to_be_bytes()[0] ^ flipped;
    let block: [u8; OLD_BLOCK] = array::from_fn(mixed);
    let mut bytes = block.repeat(room.div_ceil(OLD_BLOCK));
    bytes.truncate(room);
    bytes
}

/// Lets the library fill a buffer, and holds its answer and all that it was lent against what is meant.
fn fill_over(old: &[u8], order: &Order, rows: Result<usize, Refusal>, trace: &[u8]) -> Outcome<()> {
    let mut list = Lent::followed_by(order.list, order.behind);
    let mut buffer = Lent::new(old);
    let call = |out: &mut FillAnswer| library::fill(list.bytes(), order.empty_rows, buffer.bytes(), out);
    let found: FillAnswer = answered(call)?;
    let meant = library::fill_answer(rows);
    if found != meant {
        return Err(format!("the library answers {found:?}, the reference {meant:?}"));
    }
    list.untouched()?;
    buffer.untouched_from(trace.len())?;
    same_trace(&buffer.bytes()[..trace.len()], trace)
}

/// The bytes that the library writes must be those that the reference does.
fn same_trace(found: &[u8], meant: &[u8]) -> Outcome<()> {
    if found == meant {
        return Ok(());
    }
    let at = found.iter().zip(meant).take_while(|(found, meant)| found == meant).count();
    let (row, byte) = (at / ROW_BYTES, at % ROW_BYTES);
    Err(format!("row {row}, byte {byte}: the library writes {}, the reference {}", found[at], meant[at]))
}

/// Both checkers must accept a trace with the counts of its list.
fn judge(trace: &[u8], order: &Order) -> Outcome<()> {
    let claims = order.claims()?;
    let oob = claims.iter().filter(|claim| !claim.in_bounds()).count();
    let (instructions, oob, empty) = (claims.len() as u32, oob as u32, order.empty_rows as u32);
    let meant = Verdict::Accepted { instructions, oob, empty };
    let verdict = checkers::compare(trace)?;
    if verdict == meant { Ok(()) } else { Err(format!("the checkers say of the trace: {verdict}, meant is: {meant}")) }
}

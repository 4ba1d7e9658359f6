//! One trace put to both checkers.

use mxp::raw::CheckAnswer;
use reference::{Verdict, check};

use crate::Outcome;
use crate::library;
use crate::margins::{Lent, answered};

/// The verdict on a trace, if both come to the same and the library wrote nothing but its answer.
pub fn compare(trace: &[u8]) -> Outcome<Verdict> {
    let verdict = check(trace);
    let mut lent = Lent::new(trace);
    let found: CheckAnswer = answered(|out| library::check(lent.bytes(), out))?;
    lent.untouched()?;
    let meant = library::check_answer(verdict);
    if found == meant { Ok(verdict) } else { Err(format!("the library answers {found:?}, the reference {meant:?}")) }
}

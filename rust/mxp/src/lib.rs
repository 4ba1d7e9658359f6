//! The memory stage's calls as safe Rust: a trace of memory expansion is filled from a list of instructions, checked,
//! and asked.
//!
//! The calls are proved code in a static library, `libmxp.a`. This crate gives them Rust types and has no rule of its
//! own; what a list, a row, a constraint and a refusal are is said by document 01, which the comments name. No call
//! allocates, keeps what it is lent, or has a state of its own.
//!
//! # Linking
//!
//! Cargo links the library from the folder that the environment variable `MXP_LIB_DIR` names by its absolute path. In
//! the stage's repository that is `target/staticlib`, where `tools/built libmxp.a` puts it.
//!
//! # An example
//!
//! Six instructions of two contexts, one to a line, become a trace of one empty row, five cycles of 3 rows and one of
//! 17. The last instruction would reach 2^24 bytes and is out of bounds.
//!
//! ```
//! use mxp::{Counts, LastState, ROW_BYTES, State, Verdict};
//!
//! let list = b"\
//! cn=1 op=52 at1=0 len1=0 at2=0 len2=0
//! cn=2 op=53 at1=0 len1=0 at2=0 len2=0
//! cn=1 op=20 at1=2a0 len1=21 at2=0 len2=0
//! cn=1 op=59 at1=0 len1=0 at2=0 len2=0
//! cn=2 op=f1 at1=20 len1=0 at2=3f len2=1
//! cn=2 op=51 at1=ffffe0 len1=0 at2=0 len2=0
//! ";
//! let mut buffer = vec![0; 100 * ROW_BYTES];
//! let trace = mxp::fill(list, 1, &mut buffer)?;
//! assert_eq!(trace.len(), 33 * ROW_BYTES);
//!
//! let counts = Counts { instructions: 6, out_of_bounds: 1, empty_rows: 1 };
//! assert_eq!(mxp::check(trace)?, Verdict::Accepted(counts));
//!
//! let rows: Vec<usize> = mxp::cycles(trace)?.map(|cycle| cycle.len() / ROW_BYTES).collect();
//! assert_eq!(rows, [3, 3, 3, 3, 3, 17]);
//!
//! // Context 1 has reached 705 bytes and paid 70 gas for them, as its last cycle says, the third from the end.
//! let last = LastState { state: State { mem: 705, cost: 70 }, looked: 3 };
//! assert_eq!(mxp::last_state(trace, 1, usize::MAX)?, last);
//! # Ok::<(), mxp::Refusal>(())
//! ```

#![deny(unsafe_code)]

#[cfg(not(target_pointer_width = "64"))]
compile_error!("libmxp.a is a library for machines of 64 bits");

mod answer;
mod claim;
mod cycles;
mod end;
mod fill;
mod last_state;
pub mod raw;
mod refusal;
mod rows;
mod verdict;

pub use claim::{Claim, claim};
pub use cycles::{Cycles, cycles};
pub use end::{End, TryFromEndError};
pub use fill::fill;
pub use last_state::{LastState, State, last_state};
pub use refusal::Refusal;
pub use rows::rows;
pub use verdict::{Constraint, Counts, Verdict, check};

/// The bytes of a row.
pub const ROW_BYTES: usize = 114;

/// The most rows of a trace.
pub const MAX_ROWS: usize = 65_536;

/// The most bytes of a list.
pub const MAX_LIST_BYTES: usize = 4_194_304;

//! Traces of memory expansion, judged, asked, made and filled from lists of instructions as document 01 says, apart from
//! the stage's own code: a second opinion to compare that code with, and the source of the test vectors.

#![forbid(unsafe_code)]

pub mod account_vectors;
pub mod check;
pub mod claim;
pub mod cycle;
pub mod draft;
pub mod fill;
pub mod folder;
pub mod list;
pub mod list_vectors;
pub mod make;
#[cfg(test)]
mod names;
pub mod numbers;
pub mod price;
pub mod program;
pub mod refusal;
pub mod row;
pub mod sum;
pub mod trace;
pub mod vectors;
pub mod walker;
pub mod wide;

pub use check::{MAX_ROWS, Verdict, check};
pub use claim::Claim;
pub use cycle::{BOUND, State};
pub use draft::Draft;
pub use fill::fill;
pub use make::make;
pub use refusal::Refusal;
pub use row::{Column, ROW_BYTES, Row};
pub use trace::{LastState, Trace};
pub use walker::Walker;
pub use wide::Wide;

//! The calls over a trace put to the test, beside those of the reference: the rows and the claim of an instruction, the
//! last state of a context, and the walker.

pub mod asked;
pub mod everything;
pub mod full_size;
pub mod question;
pub mod refusals;
pub mod scenes;
pub mod sweeps;
pub mod vector_files;

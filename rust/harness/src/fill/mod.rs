//! The filler of the library put to the test, beside that of the reference: the reading of lists and the traces that
//! come of them.

pub mod case;
pub mod expected;
pub mod filling;
pub mod full_lists;
pub mod full_size;
pub mod read_back;
pub mod refusals;
pub mod sweeps;
pub mod vector_files;

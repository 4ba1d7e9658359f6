//! The checker of the library put to the test, beside that of the reference.

pub mod compare;
pub mod full_size;
pub mod sweeps;
pub mod vector_files;

//! The list of instructions, read as document 01 says: from the text of a line to its fields, from them to an
//! instruction, and from that to its claim.

pub mod answer;
pub mod claims;
pub mod form;
pub mod instruction;
pub mod opcode;

pub use answer::{Answer, next_line, walk};
pub use claims::claims;
pub use form::Fields;
pub use instruction::{Instruction, Range, Touched};
pub use opcode::{Kind, kind_of};

//! Writes the test vectors of the list reader into a folder: one file of text each, and what is to be answered.

use std::error::Error;
use std::fmt::Write;

use reference::folder::Folder;
use reference::list_vectors::all;

/// What the file of answers says of itself.
const HEAD: &str = "\
# For each vector NAME.list: its name, a tab and an answer of the list reader, first at place 0 and line 1, then at each
# place that it names as the next, with the next line, up to the end of the list or a refusal. An answer is the numbers
# that are not 0, each after its name; where all of them are 0, the list ends. refused, line, stop, next and ranges are
# decimal; cn, op, at1, len1, at2, len2, end1 and end2 are hex.
";

fn main() -> Result<(), Box<dyn Error>> {
    let folder = Folder::from_command_line()?;
    let vectors = all();
    let mut expected = String::from(HEAD);
    for vector in &vectors {
        for answer in vector.agreed() {
            writeln!(expected, "{}\t{answer}", vector.name)?;
        }
        folder.write(&vector.name, "list", &vector.text)?;
    }
    folder.write("expected", "txt", expected)?;
    println!("{} vectors", vectors.len());
    Ok(())
}

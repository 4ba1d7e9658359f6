//! Writes the test vectors of `verify` into a folder: one file of bytes each, and the lines that `verify` is to print.

use std::error::Error;
use std::fmt::Write;

use reference::folder::Folder;
use reference::vectors::all;

fn main() -> Result<(), Box<dyn Error>> {
    let folder = Folder::from_command_line()?;
    let vectors = all();
    let mut expected = String::new();
    for vector in &vectors {
        writeln!(expected, "{}\t{}", vector.name, vector.agreed())?;
        folder.write(&vector.name, "trace", &vector.bytes)?;
    }
    folder.write("expected", "txt", expected)?;
    println!("{} vectors", vectors.len());
    Ok(())
}

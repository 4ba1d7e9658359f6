//! Writes the test vectors of `account` into a folder: for each a list and what `account` is to print.

use std::error::Error;

use reference::account_vectors::all;
use reference::folder::Folder;

fn main() -> Result<(), Box<dyn Error>> {
    let folder = Folder::from_command_line()?;
    let vectors = all();
    for vector in &vectors {
        folder.write(&vector.name, "list", &vector.list)?;
        folder.write(&vector.name, "out", vector.agreed().to_string())?;
    }
    println!("{} vectors", vectors.len());
    Ok(())
}

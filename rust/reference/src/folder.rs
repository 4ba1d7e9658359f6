//! The folder that vectors are written into.

use std::error::Error;
use std::path::PathBuf;
use std::{env, fs, io};

/// A folder that is there.
pub struct Folder(PathBuf);

impl Folder {
    /// The folder that the command line names, made if it is not there yet.
    pub fn from_command_line() -> Result<Folder, Box<dyn Error>> {
        let folder = env::args_os().nth(1).map(PathBuf::from);
        let folder = folder.ok_or("a folder must be named")?;
        fs::create_dir_all(&folder)?;
        Ok(Folder(folder))
    }

    /// Writes a file of it.
    pub fn write(&self, name: &str, ending: &str, bytes: impl AsRef<[u8]>) -> io::Result<()> {
        fs::write(self.0.join(name).with_extension(ending), bytes)
    }
}

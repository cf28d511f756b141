//! A file that an option names and that is made new: one that exists is never overwritten.

use std::fs::{self, File, OpenOptions};
use std::io::{ErrorKind, Write};

use crate::failure::Failure;

pub struct NewFile {
    file: File,
    name: String,
}

impl NewFile {
    pub fn new(option: &str, name: &str) -> Result<NewFile, Failure> {
        match OpenOptions::new().write(true).create_new(true).open(name) {
            Ok(file) => Ok(NewFile {
                file,
                name: name.to_string(),
            }),
            Err(error) if error.kind() == ErrorKind::AlreadyExists => Err(Failure::usage(format!(
                "{option} {name}: there is such a file already; choose another name"
            ))),
            Err(error) => Err(Failure::writing(name, &error)),
        }
    }

    pub fn write(&mut self, bytes: &[u8]) -> Result<(), Failure> {
        let written = self.file.write_all(bytes);
        written.map_err(|error| Failure::writing(&self.name, &error))
    }

    /// Takes the file away again, where what is in it is of no use.
    pub fn remove(self) {
        // where that fails the file stays, empty or cut, and no reader takes it for a whole one
        let _ = fs::remove_file(self.name);
    }
}

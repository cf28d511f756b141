//! The bytes of a port kept in a file as they came, for `why`.

use crate::failure::Failure;
use crate::new_file::NewFile;

pub struct Recording(NewFile);

impl Recording {
    pub fn new(name: &str) -> Result<Recording, Failure> {
        NewFile::new("--record", name).map(Recording)
    }

    pub fn keep(&mut self, bytes: &[u8]) -> Result<(), Failure> {
        self.0.write(bytes)
    }
}

//! Standard output: what is printed is gathered and written at each flush, and a write that fails is told.

use std::fs::File;
use std::io::{self, IsTerminal, Write};
use std::os::fd::{AsFd, BorrowedFd};

use crate::failure::Failure;
use crate::sys;

const NAME: &str = "standard output";

pub struct Output {
    file: File,
    pub pending: Vec<u8>,
}

impl Output {
    pub fn new() -> Result<Output, Failure> {
        if sys::output_was_closed() {
            return Err(Failure::broken(
                "standard output is closed; give it a file or a pipe",
            ));
        }
        let copy = io::stdout().as_fd().try_clone_to_owned();
        let copy = copy.map_err(|error| Failure::writing(NAME, &error))?;
        Ok(Output {
            file: File::from(copy),
            pending: Vec::new(),
        })
    }

    pub fn flush(&mut self) -> Result<(), Failure> {
        let written = self.file.write_all(&self.pending);
        self.pending.clear();
        written.map_err(|error| Failure::writing(NAME, &error))
    }

    /// The file behind it, to be written to without gathering.
    pub fn into_file(self) -> File {
        self.file
    }

    pub fn fd(&self) -> BorrowedFd<'_> {
        self.file.as_fd()
    }

    pub fn is_terminal(&self) -> bool {
        self.file.is_terminal()
    }

    /// The failure of an output that nobody reads any more.
    pub fn ended() -> Failure {
        Failure::writing(NAME, &io::Error::from(io::ErrorKind::BrokenPipe))
    }
}

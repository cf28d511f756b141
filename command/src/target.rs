//! Where simulated strings go: standard output, a file, pipe or port, or a new pseudo-terminal.

use std::fs::{File, OpenOptions};
use std::io::{self, IsTerminal, Write};
use std::os::fd::{AsFd, BorrowedFd};
use std::os::unix::fs::{FileTypeExt, OpenOptionsExt};

use crate::failure::Failure;
use crate::output::Output;
use crate::port::{Line, Port};
use crate::sys;

pub struct Target {
    file: File,
    name: String,
    /// the other end of a pseudo-terminal, held open so that a recorder may come and go, as on a port
    _other_end: Option<File>,
    port: Option<Port>,
    is_pty: bool,
}

#[derive(Clone, Copy, Debug, PartialEq, Eq)]
pub enum Sent {
    Whole,
    /// the pseudo-terminal is full, as nobody reads it
    Lost,
}

impl Target {
    pub fn new(is_pty: bool, path: Option<&str>) -> Result<Target, Failure> {
        match (is_pty, path) {
            (true, None) => Target::pty(),
            (false, Some(path)) if path != "-" => Target::named(path),
            (false, _) => Target::standard_output(),
            (true, Some(_)) => Err(Failure::usage("choose one of --pty and --to")),
        }
    }

    fn pty() -> Result<Target, Failure> {
        let fails =
            |error: io::Error| Failure::broken(format!("cannot make a pseudo-terminal: {error}"));
        let (file, name) = sys::open_pty().map_err(fails)?;
        let other_end = OpenOptions::new()
            .read(true)
            .write(true)
            .custom_flags(sys::O_NOCTTY)
            .open(&name)
            .map_err(fails)?;
        sys::set_blocking(file.as_fd(), false).map_err(fails)?;
        let mut output = Output::new()?;
        output
            .pending
            .extend_from_slice(format!("{name}\n").as_bytes());
        output.flush()?;
        Ok(Target {
            file,
            name,
            _other_end: Some(other_end),
            port: None,
            is_pty: true,
        })
    }

    /// A file is made new, a pipe waits for its reader.
    fn named(path: &str) -> Result<Target, Failure> {
        let is_device = std::fs::metadata(path).is_ok_and(|data| data.file_type().is_char_device());
        let flags = if is_device {
            sys::O_NONBLOCK | sys::O_NOCTTY
        } else {
            0
        };
        let opened = OpenOptions::new()
            .write(true)
            .create(true)
            .truncate(true)
            .custom_flags(flags)
            .open(path);
        let file = opened.map_err(|error| Failure::opening(path, &error))?;
        if is_device {
            sys::set_blocking(file.as_fd(), true)
                .map_err(|error| Failure::opening(path, &error))?;
        }
        Ok(Target {
            file,
            name: path.to_string(),
            _other_end: None,
            port: None,
            is_pty: false,
        })
    }

    fn standard_output() -> Result<Target, Failure> {
        Ok(Target {
            file: Output::new()?.into_file(),
            name: "standard output".to_string(),
            _other_end: None,
            port: None,
            is_pty: false,
        })
    }

    /// Sets a port raw.
    pub fn set(&mut self, line: &Line) -> Result<(), Failure> {
        let is_own = self.file.is_terminal() && sys::is_own_terminal(self.file.as_fd());
        if !self.is_pty && !is_own {
            self.port = Port::set(&self.file, &self.name, line)?;
        }
        Ok(())
    }

    pub fn send(&mut self, string: &[u8]) -> Result<Sent, Failure> {
        match self.file.write_all(string) {
            Ok(()) => Ok(Sent::Whole),
            Err(error) if self.is_pty && error.kind() == io::ErrorKind::WouldBlock => {
                Ok(Sent::Lost)
            }
            Err(error) => Err(Failure::writing(&self.name, &error)),
        }
    }

    /// What is watched for the end of its reader; a pseudo-terminal has none that matters.
    pub fn watched(&self) -> Option<BorrowedFd<'_>> {
        (!self.is_pty).then(|| self.file.as_fd())
    }

    pub fn ended(&self) -> Failure {
        Failure::writing(&self.name, &io::Error::from(io::ErrorKind::BrokenPipe))
    }
}

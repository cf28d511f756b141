//! What strings are heard in: a file, a serial port, a pipe or standard input.

use std::fs::{self, File, FileType, OpenOptions};
use std::io::{self, IsTerminal, Read};
use std::os::fd::{AsFd, OwnedFd};
use std::os::unix::fs::{FileTypeExt, OpenOptionsExt};
use std::path::Path;

use crate::failure::Failure;
use crate::output::Output;
use crate::port::{Line, Port};
use crate::sys;

pub struct Source {
    file: File,
    pub name: String,
    port: Option<Port>,
    /// of a file, whose end is known
    pub size: Option<u64>,
}

/// What the next read brought.
pub enum Piece {
    Bytes(usize),
    End,
    /// Ctrl-C or another signal
    Stopped,
    /// the time ran out
    Quiet,
}

/// Opens a file to be read without signals caught; `-` is standard input.
pub fn open(path: &Path) -> Result<(File, String), Failure> {
    open_as(path, |_| false)
}

/// Opens it at once where it is of a kind that is said.
fn open_as(path: &Path, is_at_once: fn(&FileType) -> bool) -> Result<(File, String), Failure> {
    if path.as_os_str() == "-" {
        let name = "standard input".to_string();
        if sys::input_was_closed() {
            return Err(Failure::broken(
                "standard input is closed; give it a file or a pipe, or name a file",
            ));
        }
        return match io::stdin().as_fd().try_clone_to_owned() {
            Ok(copy) => Ok((File::from(copy), name)),
            Err(error) => Err(Failure::opening(&name, &error)),
        };
    }
    let name = path.display().to_string();
    match open_named(path, is_at_once) {
        Ok(file) => Ok((file, name)),
        Err(error) => Err(Failure::opening(&name, &error)),
    }
}

/// A port would wait for its carrier and a pipe for its writer, where Ctrl-C is not seen; and a port could become the terminal that the
/// command belongs to, whose ETX ends it.
fn open_named(path: &Path, is_at_once: fn(&FileType) -> bool) -> io::Result<File> {
    let kind = fs::metadata(path)?.file_type();
    let at_once = if is_at_once(&kind) {
        sys::O_NONBLOCK
    } else {
        0
    };
    let file = OpenOptions::new()
        .read(true)
        .custom_flags(at_once | sys::O_NOCTTY)
        .open(path)?;
    if at_once != 0 {
        sys::set_blocking(file.as_fd(), true)?;
    }
    Ok(file)
}

impl Source {
    pub fn new(path: &Path, line: &Line) -> Result<Source, Failure> {
        let (file, name) = open_as(path, |kind| kind.is_char_device() || kind.is_fifo())?;
        let is_own = file.is_terminal() && sys::is_own_terminal(file.as_fd());
        if is_own && path.as_os_str() != "-" {
            return Err(Failure::usage(format!(
                "{name} is the terminal that you type at; name the clock's port"
            )));
        }
        let port = if is_own {
            None
        } else {
            Port::set(&file, &name, line)?
        };
        let size = file
            .metadata()
            .ok()
            .filter(|data| data.is_file())
            .map(|data| data.len());
        Ok(Source {
            file,
            name,
            port,
            size,
        })
    }

    pub fn is_port(&self) -> bool {
        self.port.is_some()
    }

    /// Ctrl-C ends a port or a pipe; a file has an end of its own, before which it is not whole.
    pub fn stopped(&self) -> Result<(), Failure> {
        match self.size {
            None => Ok(()),
            Some(_) => Err(Failure::broken(format!(
                "stopped before the end of {}; what was printed is not whole",
                self.name
            ))),
        }
    }

    /// The next bytes, waited for as long as said. A port that ends was closed or unplugged, which is a failure.
    pub fn read(
        &mut self,
        buffer: &mut [u8],
        stop: &OwnedFd,
        output: &Output,
        milliseconds: Option<u32>,
    ) -> Result<Piece, Failure> {
        let fails = |error: &io::Error| Failure::reading(&self.name, error);
        let ready = sys::wait(
            Some(self.file.as_fd()),
            stop.as_fd(),
            Some(output.fd()),
            milliseconds,
        )
        .map_err(|error| fails(&error))?;
        if ready.stopped {
            return Ok(Piece::Stopped);
        }
        if !ready.input {
            // told here and not only by the next write, which a silent clock would put off for ever
            return if ready.output_ended {
                Err(Output::ended())
            } else {
                Ok(Piece::Quiet)
            };
        }
        match (&self.file).read(buffer) {
            Ok(0) if self.is_port() => Err(Failure::broken(format!(
                "{} was closed or unplugged; what came before was handled",
                self.name
            ))),
            Ok(0) => Ok(Piece::End),
            Ok(read) => Ok(Piece::Bytes(read)),
            Err(error) if error.kind() == io::ErrorKind::Interrupted => Ok(Piece::Quiet),
            Err(error) => Err(fails(&error)),
        }
    }
}

//! How far a long file has been read, on standard error, where that is a terminal and the records do not go to one.

use std::io::{self, IsTerminal, Write};
use std::time::{Duration, Instant};

use crate::output::Output;
use crate::source::Source;

const FIRST: Duration = Duration::from_millis(500);
const EACH: Duration = Duration::from_millis(250);

pub struct Progress {
    /// name and size of the file, where progress is shown
    file: Option<(String, u64)>,
    next: Instant,
    is_shown: bool,
}

impl Progress {
    pub fn new(source: &Source, output: &Output) -> Progress {
        let is_wanted = io::stderr().is_terminal() && !output.is_terminal();
        let size = source.size.filter(|size| is_wanted && *size > 0);
        Progress {
            file: size.map(|size| (source.name.clone(), size)),
            next: Instant::now() + FIRST,
            is_shown: false,
        }
    }

    pub fn at(&mut self, bytes: u64, strings: u64) {
        let Some((name, size)) = &self.file else {
            return;
        };
        if Instant::now() < self.next {
            return;
        }
        let percent = (bytes as f64 / *size as f64 * 100.0).min(100.0);
        let _ = write!(
            io::stderr(),
            "\r{name}: {percent:.0} %, {strings} strings\x1b[K"
        );
        (self.next, self.is_shown) = (Instant::now() + EACH, true);
    }
}

impl Drop for Progress {
    fn drop(&mut self) {
        if self.is_shown {
            let _ = write!(io::stderr(), "\r\x1b[K");
        }
    }
}

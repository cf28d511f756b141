//! A serial port: set raw with its speed and framing, and put back as it was found.

use std::fs::File;
use std::io;
use std::os::fd::AsFd;

use crate::arguments::{Arguments, Known};
use crate::failure::Failure;
use crate::sys::{self, Termios};

const INPCK: u32 = 0x10;
const BOTHER: u32 = 0x1000;
const CS7: u32 = 0x20;
const CS8: u32 = 0x30;
const CSTOPB: u32 = 0x40;
const CREAD: u32 = 0x80;
const PARENB: u32 = 0x100;
const PARODD: u32 = 0x200;
const HUPCL: u32 = 0x400;
const CLOCAL: u32 = 0x800;
const FRAMING: u32 = CS8 | CSTOPB | PARENB | PARODD;
/// Speeds that have a number of their own in the settings; any other is BOTHER.
const SPEEDS: [(u32, u32); 12] = [
    (300, 7),
    (600, 8),
    (1200, 9),
    (2400, 11),
    (4800, 12),
    (9600, 13),
    (19200, 14),
    (38400, 15),
    (57600, 0x1001),
    (115_200, 0x1002),
    (230_400, 0x1003),
    (460_800, 0x1004),
];
const VTIME: usize = 5;
const VMIN: usize = 6;

pub const OPTIONS: [Known; 2] = [("--baud", true), ("--framing", true)];

/// How a line is run.
#[derive(Clone, Debug)]
pub struct Line {
    pub baud: u32,
    framing: u32,
    pub words: String,
}

impl Line {
    /// The line of `--baud` and `--framing`; without them 19200 8N1.
    pub fn new(arguments: &Arguments) -> Result<Line, Failure> {
        let baud = arguments.number("--baud", "a speed such as 9600", |baud| {
            (50..=4_000_000).contains(baud)
        })?;
        let words = arguments
            .value("--framing")
            .unwrap_or("8N1")
            .to_ascii_uppercase();
        Ok(Line {
            baud: baud.unwrap_or(19200),
            framing: framing(&words)?,
            words,
        })
    }
}

/// Data bits, parity and stop bits as bits of the terminal's settings.
fn framing(words: &str) -> Result<u32, Failure> {
    let wrong = || {
        Failure::usage(format!(
            "--framing {words}: give data bits 7 or 8, parity N, E or O, stop bits 1 or 2, such as 8N1 or 7E1"
        ))
    };
    let &[data, parity, stop] = words.as_bytes() else {
        return Err(wrong());
    };
    let data = match data {
        b'7' => CS7,
        b'8' => CS8,
        _ => return Err(wrong()),
    };
    let parity = match parity {
        b'N' => 0,
        b'E' => PARENB,
        b'O' => PARENB | PARODD,
        _ => return Err(wrong()),
    };
    match stop {
        b'1' => Ok(data | parity),
        b'2' => Ok(data | parity | CSTOPB),
        _ => Err(wrong()),
    }
}

/// A port that was set, and is put back when it is dropped.
#[derive(Debug)]
pub struct Port {
    file: File,
    before: Termios,
}

impl Port {
    /// Sets a port, where the file is one.
    pub fn set(file: &File, name: &str, line: &Line) -> Result<Option<Port>, Failure> {
        let Ok(before) = sys::settings(file.as_fd()) else {
            return Ok(None);
        };
        let fails = |error: io::Error| {
            Failure::broken(format!(
                "cannot set {name} to {} {}: {error}",
                line.baud, line.words
            ))
        };
        let port = Port {
            file: file.try_clone().map_err(fails)?,
            before,
        };
        sys::set_and_drop(file.as_fd(), &raw(&before, line)).map_err(fails)?;
        let now = sys::settings(file.as_fd()).map_err(fails)?;
        if now.control & FRAMING != line.framing {
            return Err(Failure::broken(format!(
                "{name} does not take the framing {}; choose another (a pseudo-terminal has 8N1 alone)",
                line.words
            )));
        }
        // a driver tells the speed that it really runs at; a line works within 2 percent
        if now.output_speed.abs_diff(line.baud) > line.baud / 50 {
            return Err(Failure::broken(format!(
                "{name} does not take the speed {}, it runs at {}; choose another",
                line.baud, now.output_speed
            )));
        }
        Ok(Some(port))
    }
}

impl Drop for Port {
    fn drop(&mut self) {
        // a port that was closed or unplugged cannot be put back, and has no need of it
        let _ = sys::set(self.file.as_fd(), &self.before);
    }
}

/// Every byte handed on at once and as it came; a byte with a wrong parity becomes NUL, which damages its string.
fn raw(before: &Termios, line: &Line) -> Termios {
    let mut keys = before.keys;
    (keys[VMIN], keys[VTIME]) = (1, 0);
    let speed = SPEEDS
        .iter()
        .find(|(baud, _)| *baud == line.baud)
        .map_or(BOTHER, |(_, number)| *number);
    Termios {
        input: if line.framing & PARENB != 0 { INPCK } else { 0 },
        output: 0,
        local: 0,
        control: (before.control & HUPCL) | speed | CREAD | CLOCAL | line.framing,
        line: before.line,
        keys,
        input_speed: line.baud,
        output_speed: line.baud,
    }
}

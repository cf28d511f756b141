//! What ends the command early: a wrong call, or a read or write that failed.

use std::io::{Error, ErrorKind};

#[derive(Debug)]
pub enum Failure {
    /// The call is wrong: status 2.
    Usage(String),
    /// A read or a port failed: status 3.
    Broken(String),
    /// The output failed, so that nothing more can be told: status 3.
    Output(String),
}

impl Failure {
    pub fn usage(words: impl Into<String>) -> Failure {
        Failure::Usage(words.into())
    }

    pub fn broken(words: impl Into<String>) -> Failure {
        Failure::Broken(words.into())
    }

    pub fn status(&self) -> u8 {
        match self {
            Failure::Usage(_) => 2,
            Failure::Broken(_) | Failure::Output(_) => 3,
        }
    }

    pub fn words(&self) -> &str {
        match self {
            Failure::Usage(words) | Failure::Broken(words) | Failure::Output(words) => words,
        }
    }

    pub fn opening(name: &str, error: &Error) -> Failure {
        let advice = match error.kind() {
            ErrorKind::NotFound => "check the name; a serial port that is plugged in shows up as /dev/ttyUSB0, /dev/ttyACM0 or /dev/ttyS0",
            ErrorKind::PermissionDenied => "you need the right to it; for a serial port join its group, mostly dialout, and log in again",
            ErrorKind::ResourceBusy => "another program has it open; end that program first",
            _ => "check that it is there and ready",
        };
        Failure::broken(format!("cannot open {name}: {error}; {advice}"))
    }

    pub fn reading(name: &str, error: &Error) -> Failure {
        let advice = match error.kind() {
            ErrorKind::IsADirectory => "name a file in it",
            _ => "what came before was handled, the rest was not read",
        };
        Failure::broken(format!("cannot read {name}: {error}; {advice}"))
    }

    pub fn writing(name: &str, error: &Error) -> Failure {
        let advice = match error.kind() {
            ErrorKind::StorageFull => {
                "free some space and run it again; what was written is not whole"
            }
            ErrorKind::BrokenPipe => {
                "the program that reads it has ended, so the rest was not written"
            }
            _ => "what was written is not whole",
        };
        Failure::Output(format!("cannot write to {name}: {error}; {advice}"))
    }
}

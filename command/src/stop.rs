//! Ctrl-C and the other signals that end the command.

use std::os::fd::OwnedFd;

use crate::failure::Failure;
use crate::sys;

/// Catches them from now on: what is returned becomes readable. A call that waits by itself, such as opening a pipe, comes before.
pub fn signals() -> Result<OwnedFd, Failure> {
    sys::catch_signals().map_err(|error| Failure::broken(format!("cannot catch Ctrl-C: {error}")))
}

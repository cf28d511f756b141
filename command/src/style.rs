//! Words on standard error, and colour where it is a terminal.

use std::env;
use std::io::{self, IsTerminal, Write};

pub fn is_coloured(is_terminal: bool) -> bool {
    is_terminal
        && env::var_os("NO_COLOR").is_none()
        && env::var_os("TERM").is_none_or(|term| term != "dumb")
}

/// A text in a colour or weight, by its number, where it is wanted.
pub fn painted(text: &str, number: u8, coloured: bool) -> String {
    if coloured {
        format!("\x1b[{number}m{text}\x1b[0m")
    } else {
        text.to_string()
    }
}

const RED: u8 = 31;
pub const BOLD: u8 = 1;

fn say(head: &str, words: &str) {
    // where standard error is closed there is nobody left to tell
    let _ = writeln!(io::stderr(), "{head} {words}");
}

pub fn error(words: &str) {
    say(
        &painted("lindenscoop:", RED, is_coloured(io::stderr().is_terminal())),
        words,
    );
}

pub fn note(words: &str) {
    say("lindenscoop:", words);
}

/// A line as it is.
pub fn line(words: &str) {
    let _ = writeln!(io::stderr(), "{words}");
}

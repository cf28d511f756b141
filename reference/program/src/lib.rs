//! A second, independent implementation of document 01 ("Time strings, the frame and the block")
//! and of document 02, W-201 (the SAT string, form 10), W-203 (the sign in the frame, forms 8 and
//! 11), W-204 (the RMC string, form 12, and the record's kinds that it brings), W-205 (the years 1980
//! to 2079), W-206 (the runs of heard seconds) and W-207 (the runs of two racks in one table).
//!
//! It was written from these papers and the manuals alone, to be compared with the verified
//! library. It is meant to be read beside the papers, not to be fast.

// A remainder of 0 is the plainer word for the calendar.
#![allow(clippy::manual_is_multiple_of)]

pub mod afresh;
pub mod block;
pub mod calendar;
pub mod every_date;
pub mod every_minute;
pub mod every_offset;
mod every_rack;
pub mod every_second;
pub mod forms;
pub mod frame;
pub mod generate;
pub mod listener;
mod minutes;
pub mod program;
pub mod protocol;
pub mod record;
pub mod rmc;
pub mod runs;
pub mod search;
pub mod serial;

#[cfg(test)]
mod bench;
#[cfg(test)]
mod isolation;
#[cfg(test)]
mod kinds;
#[cfg(test)]
mod pairs;
#[cfg(test)]
mod racks;
#[cfg(test)]
mod rmc_strings;
#[cfg(test)]
mod sat;
#[cfg(test)]
mod signs;
#[cfg(test)]
mod vectors;

pub use forms::{read, write};
pub use listener::{Heard, Listener};
pub use record::{Date, Fraction, Position, Record};
pub use search::search;

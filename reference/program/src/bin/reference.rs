//! A filter that answers requests, so that another program can be compared with it.
//!
//!     reference                       answers each line of standard input with one line
//!     reference generate SEED COUNT   prints COUNT requests, always the same for a seed
//!     reference heard                 prints what the program `heard` prints for standard input
//!
//! F is a form, a decimal number 0..4294967295. HEX is bytes as pairs of hex digits (small ones in
//! answers); no bytes at all are `-`. A record in an answer is its block (form 9) in hex. N is a
//! number of refusal, 0 for none. Words are separated by one space. The requests:
//!
//!     read F HEX                      reads a string
//!     writeraw F FIELDS LENGTH        writes a record into a buffer of LENGTH bytes 55
//!     search F START HEX              searches from the place START on
//!     listen F HEX                    starts a listener and feeds it the bytes
//!     feed F DISTANCE HEX BYTE        feeds one byte to the state F, DISTANCE, kept bytes HEX
//!     add LENGTH USED RACK TABLE FIELDS
//!                                     adds a rack's record to a table of LENGTH rows, USED of them
//!                                     in use
//!     addall RECORDS                  adds records, one after the other, to an empty table
//!
//! The answers, in the same order:
//!
//!     N                               and behind 0 a space and the record
//!     N WRITTEN HEX                   WRITTEN is the length returned, HEX the whole buffer after
//!     N PLACE                         and behind 0 a space and the record; PLACE is 0 if refused
//!     K:RECORD ...                    for each byte K, from 1, that hands out a record, or K!13;
//!                                     `-` if no byte hands out anything. A form that a listener
//!                                     refuses: `1`, and then K!11 for each byte
//!     HEARD F DISTANCE HEX            HEARD is `-`, a record, `!11` or `!13`; then the next state
//!     N USED TABLE                    the number in use and the table that the call leaves
//!     CALLS TABLE                     each call's N and number in use, and the table at the end
//!
//! A line that is no request is answered `?`.
//!
//! FIELDS is a list of 14 fields with commas and no spaces, in the block's order. `-` is absent:
//!
//!     date        full:Y:M:D or day:N
//!     time        H:M:S
//!     fraction    2:N (hundredths), 3:N (thousandths) or 7:N (ten-millionths)
//!     channel     N
//!     sync, fix, utc, summer, change, leap    0 or 1 each
//!     offset      minutes, with `-` in front if negative
//!     position    LAT:LON:ALT (ten-thousandths of a degree, metres) or min:LAT:LON (hundredths of
//!                 a minute)
//!     dsp, lsp    0 or 1 each
//!
//! TABLE, RECORDS and CALLS are lists with `;` between the entries and no spaces; a list without
//! entries is `-`.
//!
//!     TABLE       PLACE:RACK:FIRST:LAST:COUNT for each row that is not all zero. FIRST and LAST
//!                 are seconds, YY:MONTH:DAY:HOUR:MINUTE:SECOND each, so that a row has fifteen
//!                 numbers. PLACE counts from 0 and is below LENGTH; the rows in use are those below
//!                 USED, the newest last. The other numbers, and USED and RACK, are any of
//!                 0..4294967295, also those of a second or of a rack that there is not. A row that
//!                 a request does not give is all zero, and so of rack 0. An answer gives every row
//!                 that is not all zero, in the order of their places, so that it shows every row
//!                 that a call has changed
//!     RECORDS     RACK=FIELDS for each record
//!     CALLS       N:USED for each call, in the order of the records
//!
//! `add` makes one call, with the table, USED and RACK as they are given. `addall` starts with a table
//! of 64 rows, all zero, and 0 in use; each call is handed the table and the number in use that the
//! call before it left. The number in use of a refusal is the one that was handed in. For example:
//!
//!     add 64 1 0 0:0:16:12:31:23:59:58:16:12:31:23:59:59:2 full:16:12:31,23:59:60,-,-,-,-,-,-,-,-,-,-,-,-
//!     0 1 0:0:16:12:31:23:59:58:16:12:31:23:59:60:3
//!
//! `generate` keeps to values that fit in 8 bits (date, time, channel), 16 bits (day of year,
//! altitude, signed offset) or 32 bits (fraction, signed latitude and longitude) in a record. In a
//! table any number may have 32 bits, and a RACK too; LENGTH is at most 65.

use std::env;
use std::io::{self, BufRead, BufWriter, Write};
use std::process::ExitCode;

use reference::generate::Requests;
use reference::program;
use reference::protocol::answer;

fn answer_all() -> io::Result<()> {
    let mut out = BufWriter::new(io::stdout().lock());
    for line in io::stdin().lock().lines() {
        writeln!(out, "{}", answer(&line?))?;
    }
    out.flush()
}

fn generate(seed: u64, count: usize) -> io::Result<()> {
    let mut out = BufWriter::new(io::stdout().lock());
    for request in Requests::new(seed).take(count) {
        writeln!(out, "{request}")?;
    }
    out.flush()
}

fn heard() -> io::Result<()> {
    let mut out = BufWriter::new(io::stdout().lock());
    program::run(io::stdin().lock(), &mut out)?;
    out.flush()
}

fn main() -> ExitCode {
    let words: Vec<String> = env::args().skip(1).collect();
    let words: Vec<&str> = words.iter().map(String::as_str).collect();
    let done = match words[..] {
        [] => answer_all(),
        ["generate", seed, count] => match (seed.parse(), count.parse()) {
            (Ok(seed), Ok(count)) => generate(seed, count),
            _ => Err(io::Error::other("SEED and COUNT are numbers")),
        },
        ["heard"] => heard(),
        _ => Err(io::Error::other(
            "use: reference [generate SEED COUNT | heard]",
        )),
    };
    match done {
        Ok(()) => ExitCode::SUCCESS,
        Err(error) => {
            eprintln!("reference: {error}");
            ExitCode::FAILURE
        }
    }
}

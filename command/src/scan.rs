//! All strings of a form in a source, each with its byte place, by repeated search through pieces.

use std::os::fd::OwnedFd;
use std::time::{Duration, Instant};

use lindenscoop::{search, Form, Record};

use crate::failure::Failure;
use crate::forms;
use crate::output::Output;
use crate::progress::Progress;
use crate::recording::Recording;
use crate::source::{Piece, Source};
use crate::style;

const PIECE: usize = 1 << 18;
const SILENCE: Duration = Duration::from_secs(5);

/// Searches pieces. The last n-1 bytes of each are kept before the next one, so that no string is cut and none is found twice.
pub struct Scanner {
    form: Form,
    length: usize,
    buffer: Vec<u8>,
    kept: usize,
    /// the place in the stream of the buffer's first byte
    place: u64,
}

impl Scanner {
    pub fn new(form: Form) -> Scanner {
        let length = forms::length(form);
        Scanner {
            form,
            length,
            buffer: vec![0; length - 1 + PIECE],
            kept: 0,
            place: 0,
        }
    }

    /// Where the next piece is put.
    pub fn room(&mut self) -> &mut [u8] {
        &mut self.buffer[self.kept..]
    }

    /// Hands on each string that ends in the piece of which so many bytes were put there.
    pub fn take(&mut self, read: usize, mut each: impl FnMut(u64, &Record)) {
        let bytes = &self.buffer[..self.kept + read];
        let mut at = 0;
        while let Ok(found) = search(self.form, bytes, at) {
            each(self.place + found.place as u64, &found.record);
            at = found.place + self.length;
        }
        let end = bytes.len();
        let kept = end.min(self.length - 1);
        self.buffer.copy_within(end - kept..end, 0);
        self.place += (end - kept) as u64;
        self.kept = kept;
    }
}

#[derive(Clone, Copy, Debug, Default)]
pub struct Counts {
    pub bytes: u64,
    pub strings: u64,
    pub stopped: bool,
}

/// Prints each string of a source, and flushes after each read.
pub fn scan(
    form: Form,
    source: &mut Source,
    stop: &OwnedFd,
    mut recording: Option<&mut Recording>,
    output: &mut Output,
    counts: &mut Counts,
    mut print: impl FnMut(&mut Vec<u8>, u64, &Record),
) -> Result<(), Failure> {
    let mut scanner = Scanner::new(form);
    let mut progress = Progress::new(source, output);
    let mut silence = source.is_port().then(Instant::now);
    loop {
        let time = silence.map(|_| SILENCE.as_millis() as u32);
        match source.read(scanner.room(), stop, output, time)? {
            Piece::End => return Ok(()),
            Piece::Stopped => {
                counts.stopped = true;
                return source.stopped();
            }
            Piece::Quiet => {}
            Piece::Bytes(read) => {
                if let Some(recording) = &mut recording {
                    recording.keep(&scanner.room()[..read])?;
                }
                counts.bytes += read as u64;
                scanner.take(read, |place, record| {
                    counts.strings += 1;
                    print(&mut output.pending, place, record);
                });
                output.flush()?;
                progress.at(counts.bytes, counts.strings);
            }
        }
        if silence.is_some_and(|since| counts.strings > 0 || since.elapsed() >= SILENCE) {
            note_silence(source, counts);
            silence = None;
        }
    }
}

/// Said once of a port on which nothing was heard for some seconds.
fn note_silence(source: &Source, counts: &Counts) {
    if counts.strings > 0 {
        return;
    }
    style::note(&if counts.bytes == 0 {
        format!(
            "no byte has come on {} yet; check cable, clock and the port's name",
            source.name
        )
    } else {
        format!(
            "{} bytes have come on {} and no valid string; check --form, --baud and --framing, or record them with --record FILE and ask `lindenscoop why FILE`",
            counts.bytes, source.name
        )
    });
}

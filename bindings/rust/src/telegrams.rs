//! All records of a slice, and of anything that can be read.

use std::io::{self, Read};

use crate::codec::{search, Found};
use crate::ffi;
use crate::form::Form;
use crate::listener::Listener;
use crate::refusal::Refusal;

/// The valid strings of a serial form in a slice, in order, each with its place.
///
/// ```
/// use lindenscoop::{telegrams, Form};
///
/// let bytes = b"XGU000229000000\r--XGU000229000001\r";
/// let seconds: Vec<u32> = telegrams(Form::RACAL, bytes).unwrap().map(|found| found.record.second).collect();
/// assert_eq!(seconds, [0, 1]);
/// ```
///
/// A form that is not serial, 1 to 7, 10 or 12, is refused, as by [`heard`]:
///
/// ```
/// use lindenscoop::{telegrams, Form, Refusal};
///
/// assert_eq!(telegrams(Form::FRAME, b"").err(), Some(Refusal::UnknownForm));
/// ```
pub fn telegrams(form: Form, bytes: &[u8]) -> Result<Telegrams<'_>, Refusal> {
    Listener::new(form)?;
    Ok(Telegrams { form, bytes, at: 0 })
}

/// The iterator of [`telegrams`].
#[derive(Clone, Debug)]
pub struct Telegrams<'a> {
    form: Form,
    bytes: &'a [u8],
    at: usize,
}

impl Iterator for Telegrams<'_> {
    type Item = Found;

    fn next(&mut self) -> Option<Found> {
        match search(self.form, self.bytes, self.at) {
            Ok(found) => {
                // Valid strings never overlap, so going on one byte further finds the same ones as going on behind the string.
                self.at = found.place + 1;
                Some(found)
            }
            Err(Refusal::NotFound) => None,
            Err(refusal) => unreachable!("the form is a serial one: {refusal}"),
        }
    }
}

/// Runs a new listener over a slice and marks each byte that completes a valid string with 1, any other with 0.
///
/// ```
/// use lindenscoop::{mark, Form};
///
/// let bytes = b"--XGU000229000000\r--";
/// let mut marks = [0; 20];
/// mark(Form::RACAL, bytes, &mut marks).unwrap();
/// assert_eq!(marks.iter().position(|mark| *mark == 1), Some(17));
/// ```
pub fn mark(form: Form, bytes: &[u8], marks: &mut [u8]) -> Result<(), Refusal> {
    match ffi::mark(form.0, bytes, marks) {
        0 => Ok(()),
        number => Err(Refusal::answered(number)),
    }
}

/// The strings heard in what a reader yields, in pieces of any size, each with its place: the number of bytes read before it.
///
/// ```
/// use lindenscoop::{heard, Form};
///
/// let log: &[u8] = b"noiseXGU000229000000\r";
/// for found in heard(Form::RACAL, log).unwrap() {
///     let found = found.unwrap();
///     assert_eq!((found.place, found.record.second), (5, 0));
/// }
/// ```
///
/// A form that is not serial, 1 to 7, 10 or 12, is refused, before anything is read:
///
/// ```
/// use lindenscoop::{heard, Form, Refusal};
///
/// assert_eq!(heard(Form::BLOCK, std::io::empty()).err(), Some(Refusal::UnknownForm));
/// ```
pub fn heard<R: Read>(form: Form, reader: R) -> Result<Heard<R>, Refusal> {
    let listener = Listener::new(form)?;
    let length = form.length().ok_or(Refusal::UnknownForm)?;
    Ok(Heard {
        reader,
        listener,
        length,
        fed: 0,
        piece: vec![0; 65536],
        at: 0,
        end: 0,
    })
}

/// The iterator of [`heard`].
#[derive(Debug)]
pub struct Heard<R> {
    reader: R,
    listener: Listener,
    /// of a string
    length: usize,
    /// bytes of the stream so far
    fed: usize,
    piece: Vec<u8>,
    at: usize,
    end: usize,
}

impl<R: Read> Heard<R> {
    /// The next piece; false at the end.
    fn refill(&mut self) -> io::Result<bool> {
        loop {
            match self.reader.read(&mut self.piece) {
                Ok(read) => {
                    (self.at, self.end) = (0, read);
                    return Ok(read > 0);
                }
                Err(error) if error.kind() == io::ErrorKind::Interrupted => {}
                Err(error) => return Err(error),
            }
        }
    }
}

impl<R: Read> Iterator for Heard<R> {
    type Item = io::Result<Found>;

    fn next(&mut self) -> Option<io::Result<Found>> {
        loop {
            let (used, answer) = self.listener.feed_all(&self.piece[self.at..self.end]);
            self.at += used;
            self.fed += used;
            match answer {
                Ok(Some(record)) => {
                    let place = self.fed - self.length;
                    return Some(Ok(Found { place, record }));
                }
                Ok(None) => match self.refill() {
                    Ok(true) => {}
                    Ok(false) => return None,
                    Err(error) => return Some(Err(error)),
                },
                // A listener that was started is never refused; were it so, the caller is told.
                Err(refusal) => return Some(Err(refusal.into())),
            }
        }
    }
}

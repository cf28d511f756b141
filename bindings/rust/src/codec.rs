//! Strings of any form, read, written and searched for.

use crate::ffi;
use crate::form::Form;
use crate::record::Record;
use crate::refusal::Refusal;

/// The longest string: a block of 174 bytes.
const LONGEST_STRING: usize = 174;

/// Reads a whole input of a form.
pub fn read(form: Form, input: &[u8]) -> Result<Record, Refusal> {
    match ffi::read(form.0, input) {
        (0, numbers) => Ok(Record::decode(&numbers)),
        (number, _) => Err(Refusal::answered(number)),
    }
}

/// Writes a record at the head of a buffer and says how many bytes it has. A refused write changes no byte.
///
/// ```
/// use lindenscoop::{write, Date, Form, Record, Refusal};
///
/// let record = Record { date: Some(Date::Full { yy: 24, month: 1, day: 1 }), hour: 12, ..Record::default() };
/// let mut buffer = [0; 16];
/// assert_eq!(write(Form::RACAL, &record, &mut buffer), Ok(16));
/// assert_eq!(&buffer, b"XGU240101120000\r");
/// assert_eq!(write(Form::SYSPLEX, &record, &mut buffer), Err(Refusal::MissingField));
/// ```
pub fn write(form: Form, record: &Record, buffer: &mut [u8]) -> Result<usize, Refusal> {
    match ffi::write(form.0, &record.encode(), buffer) {
        (0, written) => Ok(written),
        (number, _) => Err(Refusal::answered(number)),
    }
}

/// Writes a record behind what a vector holds and says how many bytes it has. A refused write leaves the vector as it is.
///
/// ```
/// use lindenscoop::{append, Date, Form, Record};
///
/// let record = Record { date: Date::of_full_year(2024, 1, 1), hour: 12, ..Record::default() };
/// let mut log = Vec::new();
/// append(Form::RACAL, &record, &mut log)?;
/// append(Form::RACAL, &Record { second: 1, ..record }, &mut log)?;
/// assert_eq!(log, b"XGU240101120000\rXGU240101120001\r");
/// # Ok::<(), lindenscoop::Refusal>(())
/// ```
pub fn append(form: Form, record: &Record, out: &mut Vec<u8>) -> Result<usize, Refusal> {
    let mut string = [0; LONGEST_STRING];
    let written = write(form, record, &mut string)?;
    out.extend_from_slice(&string[..written]);
    Ok(written)
}

/// A valid string and where it begins: the number of bytes before it.
#[derive(Clone, Copy, Debug, PartialEq, Eq)]
pub struct Found {
    pub place: usize,
    pub record: Record,
}

/// The first valid string of a serial form that lies wholly at or after a start. A form that is not serial is refused with
/// [`Refusal::UnknownForm`].
///
/// ```
/// use lindenscoop::{search, Form, Refusal};
///
/// let bytes = b"..XGU000229000000\r..";
/// assert_eq!(search(Form::RACAL, bytes, 0).unwrap().place, 2);
/// assert_eq!(search(Form::RACAL, bytes, 3), Err(Refusal::NotFound));
/// ```
pub fn search(form: Form, bytes: &[u8], start: usize) -> Result<Found, Refusal> {
    match ffi::search(form.0, bytes, start) {
        (0, place, numbers) => Ok(Found {
            place,
            record: Record::decode(&numbers),
        }),
        (number, _, _) => Err(Refusal::answered(number)),
    }
}

impl Record {
    /// The record as a block, form 9: text with a line for each field.
    ///
    /// ```
    /// let block = lindenscoop::Record::default().block().unwrap();
    /// assert!(block.starts_with("date=-\ntime=00:00:00\n"));
    /// ```
    pub fn block(&self) -> Result<String, Refusal> {
        let mut out = Vec::new();
        append(Form::BLOCK, self, &mut out)?;
        Ok(String::from_utf8_lossy(&out).into_owned())
    }
}

//! Why an input, a record, a rack, a buffer, a state or a table is refused. The meanings are those of README.md, "What a refusal means".

use std::error::Error;
use std::fmt;
use std::io;

macro_rules! refusals {
    ($($name:ident = $number:literal, $meaning:literal;)*) => {
        /// A refusal, with the number that the library answers. More will come, so a `match` has an arm for any other one:
        ///
        /// ```compile_fail,E0004
        /// use lindenscoop::Refusal::*;
        ///
        /// fn is_known(refusal: lindenscoop::Refusal) -> bool {
        ///     match refusal {
        #[doc = concat!("        ", $("| ", stringify!($name), " ",)* "=> true,")]
        ///     }
        /// }
        /// ```
        #[derive(Clone, Copy, Debug, PartialEq, Eq, Hash)]
        #[non_exhaustive]
        pub enum Refusal {
            $(#[doc = $meaning] $name = $number,)*
        }

        impl Refusal {
            /// Every refusal, in the order of the numbers.
            pub const ALL: &'static [Refusal] = &[$(Refusal::$name,)*];

            /// What it means.
            pub fn meaning(self) -> &'static str {
                match self {
                    $(Refusal::$name => $meaning,)*
                }
            }
        }
    };
}

refusals! {
    UnknownForm = 1, "there is no form of this number, or none that search and listener take";
    WrongLength = 2, "the input is not as long as the form";
    WrongByte = 3, "a fixed byte, digit, letter, padding, mark, key or spelling is wrong";
    OutOfRange = 4, "a number is outside its range, or there is no such date";
    Disagreement = 5, "two parts disagree: weekday and date, `L` and second 60, seconds of the day and time, a minus, `S`, `W` or a frame's sign 1 on a zero, utc and summer both yes";
    WrongChecksum = 6, "the SPA or RMC sum or the frame's parity is wrong";
    BadRecord = 7, "the record to be written is bad";
    MissingField = 8, "a field that the form carries is absent or of another kind";
    NotExpressible = 9, "the form has no letter for the record's values";
    ShortBuffer = 10, "the buffer is shorter than the output";
    BadState = 11, "a listener's state that no listener has: another version or form, too many bytes, too large a distance";
    NotFound = 12, "no valid string lies wholly at or after the start of the search";
    Overlap = 13, "a valid string ends too close behind the last one; a listener that was started never gives it";
    NoSecond = 14, "the record has no full date, or is bad, so that it tells no second";
    NoRow = 15, "a row is needed and this rack has 32 in use";
    NoRack = 16, "there is no rack of this number: the racks are 0 and 1";
    BadTable = 21, "a table that no calls made: not of 64 rows, a number in use over 64, a row in use of a rack that is not 0 or 1, over 32 rows of one rack, or a rack's newest row with an impossible last second or a count over 4,000,000,000";
}

impl Refusal {
    /// The number, as the library and its papers have it.
    ///
    /// ```
    /// assert_eq!(lindenscoop::Refusal::WrongChecksum.number(), 6);
    /// ```
    pub fn number(self) -> u32 {
        self as u32
    }

    /// The refusal of a number, if there is one.
    pub fn from_number(number: u32) -> Option<Refusal> {
        Refusal::ALL
            .iter()
            .copied()
            .find(|refusal| refusal.number() == number)
    }

    /// The refusal of a number that the library answered.
    pub(crate) fn answered(number: u32) -> Refusal {
        Refusal::from_number(number).expect("the library answers its own numbers")
    }
}

impl fmt::Display for Refusal {
    fn fmt(&self, f: &mut fmt::Formatter<'_>) -> fmt::Result {
        write!(f, "refused with {}: {}", self.number(), self.meaning())
    }
}

impl Error for Refusal {}

/// For functions that return `io::Result`: `InvalidInput` where a form, a record, a rack or a buffer of the caller's is refused, a table
/// without a row left included, `InvalidData` where bytes that were read, a state or a table are. The refusal is kept inside.
///
/// ```
/// use lindenscoop::{read, Form, Record, Refusal};
///
/// fn first(bytes: &[u8]) -> std::io::Result<Record> {
///     Ok(read(Form::RACAL, bytes)?)
/// }
/// let error = first(b"XGU").unwrap_err();
/// assert_eq!(error.kind(), std::io::ErrorKind::InvalidData);
/// assert_eq!(error.downcast::<Refusal>().unwrap(), Refusal::WrongLength);
/// ```
impl From<Refusal> for io::Error {
    fn from(refusal: Refusal) -> io::Error {
        let kind = match refusal {
            Refusal::UnknownForm
            | Refusal::BadRecord
            | Refusal::MissingField
            | Refusal::NotExpressible
            | Refusal::ShortBuffer
            | Refusal::NoSecond
            | Refusal::NoRow
            | Refusal::NoRack => io::ErrorKind::InvalidInput,
            Refusal::WrongLength
            | Refusal::WrongByte
            | Refusal::OutOfRange
            | Refusal::Disagreement
            | Refusal::WrongChecksum
            | Refusal::BadState
            | Refusal::NotFound
            | Refusal::Overlap
            | Refusal::BadTable => io::ErrorKind::InvalidData,
        };
        io::Error::new(kind, refusal)
    }
}

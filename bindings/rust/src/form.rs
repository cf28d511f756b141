//! The forms by their numbers and names.

use std::error::Error;
use std::fmt;
use std::str::FromStr;

use crate::listener::Listener;
use crate::refusal::Refusal;

/// A form by its number; a number that is none is refused with [`Refusal::UnknownForm`]. More forms will come, so a `match` on a
/// form has an arm for any other one.
///
/// ```
/// use lindenscoop::{Form, Refusal};
///
/// assert_eq!("racal".parse(), Ok(Form::RACAL));
/// assert_eq!("5".parse(), Ok(Form::RACAL));
/// assert_eq!(Form::RACAL.to_string(), "racal");
/// assert_eq!(Form::try_from(5), Ok(Form::RACAL));
/// assert_eq!(Form::try_from(0), Err(Refusal::UnknownForm));
/// assert_eq!(u32::from(Form::RACAL), 5);
/// ```
///
/// [`Form::FRAME`] and [`Form::C37118`] are one frame under two rules for its sign; IEEE 1344 has the offset that is added to the encoded
/// time to reach UTC. A frame does not tell its rule: read by the other one it is not refused, and its offset has the other sign. Until
/// `C37118` came, `FRAME` had its rule: frames kept from then are read as `C37118`.
///
/// ```
/// use lindenscoop::{append, read, Date, Form, Record};
///
/// let (date, no) = (Date::of_full_year(2024, 1, 1), Some(false));
/// let record = Record { date, sync: no, summer: no, offset: Some(60), dsp: no, lsp: no, ..Record::default() };
/// let mut kept = Vec::new();
/// append(Form::C37118, &record, &mut kept)?;
/// assert_eq!(read(Form::C37118, &kept)?.offset, Some(60));
/// assert_eq!(read(Form::FRAME, &kept)?.offset, Some(-60));
/// # Ok::<(), lindenscoop::Refusal>(())
/// ```
#[derive(Clone, Copy, Debug, PartialEq, Eq, Hash)]
pub struct Form(pub u32);

macro_rules! forms {
    ($($constant:ident = $number:literal, $name:literal, $length:literal, $remark:literal;)*) => {
        impl Form {
            $(#[doc = $remark] pub const $constant: Form = Form($number);)*

            /// Every form, in the order of the numbers.
            pub const ALL: &'static [Form] = &[$(Form::$constant,)*];

            /// The name, in lower case; `None` for a number that is no form's.
            pub fn name(self) -> Option<&'static str> {
                match self {
                    $(Form::$constant => Some($name),)*
                    _ => None,
                }
            }

            /// How many bytes a string has; of the block, whose strings are 118 to 174 bytes long, the most. `None` for a number that is
            /// no form's.
            pub fn length(self) -> Option<usize> {
                match self {
                    $(Form::$constant => Some($length),)*
                    _ => None,
                }
            }
        }
    };
}

forms! {
    STANDARD = 1, "standard", 32, "Standard";
    CAPTURE = 2, "capture", 31, "Capture";
    ERLANGEN = 3, "erlangen", 66, "Uni Erlangen";
    SPA = 4, "spa", 32, "ABB SPA";
    RACAL = 5, "racal", 16, "RACAL";
    SYSPLEX = 6, "sysplex", 16, "SYSPLEX-1";
    COMPUTIME = 7, "computime", 24, "Computime";
    FRAME = 8, "frame", 100, "The IEEE1344 frame, as bytes 0, 1 and 2. Its sign is 1 for an offset above zero.";
    BLOCK = 9, "block", 174, "The block: text with a line for each field.";
    SAT = 10, "sat", 29, "SAT";
    C37118 = 11, "c37118", 100, "The IEEE1344 frame with the sign of IEEE C37.118, 1 for an offset below zero.";
    RMC = 12, "rmc", 65, "The NMEA RMC string of 65 bytes, with the position in minutes.";
}

impl Form {
    /// Whether search and listener take the form: 1 to 7, 10 and 12.
    ///
    /// ```
    /// use lindenscoop::Form;
    ///
    /// assert!(Form::RACAL.is_serial() && Form::SAT.is_serial() && Form::RMC.is_serial());
    /// assert!(!Form::FRAME.is_serial() && !Form::BLOCK.is_serial() && !Form::C37118.is_serial());
    /// ```
    pub fn is_serial(self) -> bool {
        Listener::new(self).is_ok()
    }
}

/// The name; a number that is no form's is printed as it is.
impl fmt::Display for Form {
    fn fmt(&self, f: &mut fmt::Formatter<'_>) -> fmt::Result {
        match self.name() {
            Some(name) => f.pad(name),
            None => fmt::Display::fmt(&self.0, f),
        }
    }
}

impl From<Form> for u32 {
    fn from(form: Form) -> u32 {
        form.0
    }
}

impl TryFrom<u32> for Form {
    type Error = Refusal;

    fn try_from(number: u32) -> Result<Form, Refusal> {
        let form = Form(number);
        form.name().map(|_| form).ok_or(Refusal::UnknownForm)
    }
}

/// A word that neither names nor numbers a form. It says which do.
#[derive(Clone, Debug, PartialEq, Eq)]
pub struct ParseFormError {
    word: String,
}

impl fmt::Display for ParseFormError {
    fn fmt(&self, f: &mut fmt::Formatter<'_>) -> fmt::Result {
        write!(f, "there is no form {:?}; the forms are", self.word)?;
        for (place, form) in Form::ALL.iter().enumerate() {
            let before = if place == 0 { " " } else { ", " };
            write!(f, "{before}{form} ({})", form.0)?;
        }
        Ok(())
    }
}

impl Error for ParseFormError {}

/// By name, in letters of either case, or by number.
impl FromStr for Form {
    type Err = ParseFormError;

    fn from_str(word: &str) -> Result<Form, ParseFormError> {
        let is_meant = |form: &Form| {
            form.0.to_string() == word
                || form
                    .name()
                    .is_some_and(|name| name.eq_ignore_ascii_case(word))
        };
        let found = Form::ALL.iter().copied().find(is_meant);
        found.ok_or_else(|| ParseFormError {
            word: word.to_string(),
        })
    }
}

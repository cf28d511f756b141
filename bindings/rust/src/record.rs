//! The record of a time string. A field that was not sent is `None`.

use crate::ffi;

/// A date: whole, or a day of year alone.
///
/// `yy` was named `year` as long as all of 0..=99 meant 2000 and later. Code that adds 2000 to it would tell 2091 for 1991, so by the old
/// name it does not compile; it asks [`full_year`](Date::full_year), and makes dates by [`of_full_year`](Date::of_full_year):
///
/// ```compile_fail,E0026
/// fn year(date: lindenscoop::Date) -> Option<u32> {
///     match date {
///         lindenscoop::Date::Full { year, .. } => Some(2000 + year),
///         lindenscoop::Date::DayOfYear(_) => None,
///     }
/// }
/// ```
///
/// ```compile_fail,E0559
/// let date = lindenscoop::Date::Full { year: 24, month: 2, day: 29 };
/// ```
#[derive(Clone, Copy, Debug, PartialEq, Eq, Hash)]
pub enum Date {
    /// `yy` is 0..=99: 80..=99 mean 1980 to 1999, 0..=79 mean 2000 to 2079.
    Full { yy: u32, month: u32, day: u32 },
    /// 1..=366
    DayOfYear(u32),
}

impl Date {
    /// The date of a year with its century, 1980 to 2079; `None` for any other year.
    pub fn of_full_year(year: u32, month: u32, day: u32) -> Option<Date> {
        let yy = year % 100;
        let date = Date::Full { yy, month, day };
        (date.full_year() == Some(year)).then_some(date)
    }

    /// The year with its century, 1980 to 2079; `None` for a day of year alone.
    ///
    /// ```
    /// use lindenscoop::{read, Date, Form};
    ///
    /// let date = read(Form::RACAL, b"XGU240101120000\r").unwrap().date;
    /// assert_eq!(date, Some(Date::Full { yy: 24, month: 1, day: 1 }));
    /// assert_eq!(date.and_then(|date| date.full_year()), Some(2024));
    /// assert_eq!(date, Date::of_full_year(2024, 1, 1));
    ///
    /// let date = read(Form::RACAL, b"XGU910101120000\r").unwrap().date;
    /// assert_eq!(date.and_then(|date| date.full_year()), Some(1991));
    /// assert_eq!(date, Date::of_full_year(1991, 1, 1));
    /// ```
    pub fn full_year(self) -> Option<u32> {
        let Date::Full { yy, .. } = self else {
            return None;
        };
        match ffi::full_year(yy) {
            (0, year) => Some(year),
            _ => None,
        }
    }

    /// The days from 1 January 1980 to the date; `None` for a day of year alone, and where the calendar has no such date.
    ///
    /// ```
    /// use lindenscoop::Date;
    ///
    /// assert_eq!(Date::Full { yy: 80, month: 1, day: 1 }.days_since_1980(), Some(0));
    /// assert_eq!(Date::Full { yy: 91, month: 1, day: 1 }.days_since_1980(), Some(4018));
    /// assert_eq!(Date::Full { yy: 24, month: 2, day: 29 }.days_since_1980(), Some(16130));
    /// assert_eq!(Date::Full { yy: 23, month: 2, day: 29 }.days_since_1980(), None);
    /// assert_eq!(Date::DayOfYear(60).days_since_1980(), None);
    /// ```
    pub fn days_since_1980(&self) -> Option<u32> {
        let Date::Full { yy, month, day } = *self else {
            return None;
        };
        match ffi::days_since_1980(yy, month, day) {
            (0, days) => Some(days),
            _ => None,
        }
    }
}

/// A fraction of a second; one kind is never converted into another. More kinds may come, so a `match` has an arm for any
/// other one, or the fraction is taken as [`value`](Fraction::value) and [`digits`](Fraction::digits):
///
/// ```
/// use lindenscoop::Fraction;
///
/// let fraction = Fraction::Thousandths(7);
/// assert_eq!(format!("0.{:01$}", fraction.value(), fraction.digits()), "0.007");
/// let fraction = Fraction::Hundredths(7);
/// assert_eq!(format!("0.{:01$}", fraction.value(), fraction.digits()), "0.07");
/// ```
///
/// ```compile_fail,E0004
/// fn digits(fraction: lindenscoop::Fraction) -> usize {
///     match fraction {
///         lindenscoop::Fraction::Hundredths(_) => 2,
///         lindenscoop::Fraction::Thousandths(_) => 3,
///         lindenscoop::Fraction::TenMillionths(_) => 7,
///     }
/// }
/// ```
#[derive(Clone, Copy, Debug, PartialEq, Eq, Hash)]
#[non_exhaustive]
pub enum Fraction {
    /// 0..=99
    Hundredths(u32),
    /// 0..=999
    Thousandths(u32),
    /// 0..=9_999_999
    TenMillionths(u32),
}

impl Fraction {
    /// The number that was sent; of the second it is this over 10 to the power of [`digits`](Fraction::digits).
    pub fn value(self) -> u32 {
        match self {
            Fraction::Hundredths(value)
            | Fraction::Thousandths(value)
            | Fraction::TenMillionths(value) => value,
        }
    }

    /// How many digits were sent behind the point: 2, 3 or 7.
    pub fn digits(self) -> usize {
        match self {
            Fraction::Hundredths(_) => 2,
            Fraction::Thousandths(_) => 3,
            Fraction::TenMillionths(_) => 7,
        }
    }
}

/// A position as it was sent, north and east positive; one kind is never converted into the other, and the number of one is not
/// the number of the other:
///
/// ```
/// use lindenscoop::{read, Form, Position};
///
/// let string = b"$GPRMC,120000.00,A,4721.00,N,00803.75,E,0.0,0.0,010124,0.0,E*54\r\n";
/// match read(Form::RMC, string)?.position {
///     Some(Position::Degrees { latitude, .. }) => println!("{} ten-thousandths of a degree", latitude),
///     Some(Position::Minutes { latitude, .. }) => assert_eq!(latitude, (47 * 60 + 21) * 100),
///     None => println!("not sent"),
/// }
/// # Ok::<(), lindenscoop::Refusal>(())
/// ```
///
/// Until form 12 came a position had one kind, in degrees, and was a struct. Code from then does not compile, so that no minute is
/// read as a degree; it names the kind that it takes:
///
/// ```compile_fail,E0609
/// fn north(position: lindenscoop::Position) -> i32 {
///     position.latitude
/// }
/// ```
///
/// ```compile_fail,E0574
/// let here = lindenscoop::Position { latitude: 473_500, longitude: 80_625, altitude: 431 };
/// ```
///
/// ```compile_fail,E0004
/// use lindenscoop::Position;
///
/// fn north(position: Position) -> i32 {
///     match position {
///         Position::Degrees { latitude, .. } => latitude,
///     }
/// }
/// ```
#[derive(Clone, Copy, Debug, PartialEq, Eq, Hash)]
pub enum Position {
    /// Latitude -900_000..=900_000 and longitude -1_800_000..=1_800_000 in ten-thousandths of a degree, altitude 0..=9_999 metres.
    Degrees {
        latitude: i32,
        longitude: i32,
        altitude: u32,
    },
    /// Latitude -540_000..=540_000 and longitude -1_080_000..=1_080_000 in hundredths of a minute of arc; there is no altitude.
    Minutes { latitude: i32, longitude: i32 },
}

/// A record. Its default is the empty record: time 00:00:00 and all else absent.
#[derive(Clone, Copy, Debug, Default, PartialEq, Eq, Hash)]
pub struct Record {
    pub hour: u32,
    pub minute: u32,
    /// 60 in a leap second
    pub second: u32,
    pub date: Option<Date>,
    pub fraction: Option<Fraction>,
    pub channel: Option<u32>,
    pub sync: Option<bool>,
    /// position checked
    pub fix: Option<bool>,
    pub utc: Option<bool>,
    pub summer: Option<bool>,
    /// a change of summer time, announced in the last hour
    pub change: Option<bool>,
    /// a leap second, announced in the last hour
    pub leap: Option<bool>,
    /// minutes of local time minus UTC
    pub offset: Option<i32>,
    pub position: Option<Position>,
    /// a change of summer time is pending (IEEE1344)
    pub dsp: Option<bool>,
    /// a leap second is pending (IEEE1344)
    pub lsp: Option<bool>,
}

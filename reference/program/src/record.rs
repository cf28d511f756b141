//! Section "The record": what a time string says, with absence as a value of its own.

use crate::calendar;

/// A date: whole, or a day of year alone.
#[derive(Clone, Copy, Debug, PartialEq, Eq)]
pub enum Date {
    /// `year` is 0..99; `calendar::full_year` says which year it means.
    Full {
        year: u32,
        month: u32,
        day: u32,
    },
    DayOfYear(u32),
}

/// A fraction of a second. The three kinds are never converted into each other.
#[derive(Clone, Copy, Debug, PartialEq, Eq)]
pub enum Fraction {
    /// Document 02, W-204.
    Hundredths(u32),
    Thousandths(u32),
    TenMillionths(u32),
}

/// A place, north and east positive. "Neither kind is turned into the other" (document 02, W-204).
#[derive(Clone, Copy, Debug, PartialEq, Eq)]
pub enum Position {
    /// Ten-thousandths of a degree, and whole metres.
    Degrees {
        latitude: i32,
        longitude: i32,
        altitude: u32,
    },
    /// Hundredths of a minute. This kind has no altitude, not even an absent one.
    Minutes { latitude: i32, longitude: i32 },
}

/// The record. Its default is the empty record: time 00:00:00 and all else absent.
#[derive(Clone, Copy, Debug, Default, PartialEq, Eq)]
pub struct Record {
    pub date: Option<Date>,
    pub hour: u32,
    pub minute: u32,
    pub second: u32,
    pub fraction: Option<Fraction>,
    pub channel: Option<u32>,
    pub sync: Option<bool>,
    pub fix: Option<bool>,
    pub utc: Option<bool>,
    pub summer: Option<bool>,
    pub change: Option<bool>,
    pub leap: Option<bool>,
    /// Minutes of local time minus UTC.
    pub offset: Option<i32>,
    pub position: Option<Position>,
    pub dsp: Option<bool>,
    pub lsp: Option<bool>,
}

/// Second 60 may stand in any minute, since local offsets need not be whole hours.
pub fn time_in_range(hour: u32, minute: u32, second: u32) -> bool {
    hour <= 23 && minute <= 59 && second <= 60
}

impl Date {
    pub fn in_range(&self) -> bool {
        match *self {
            Date::Full { year, month, day } => calendar::date_exists(year, month, day),
            Date::DayOfYear(day) => (1..=366).contains(&day),
        }
    }
}

impl Fraction {
    pub fn in_range(&self) -> bool {
        match *self {
            Fraction::Hundredths(number) => number <= 99,
            Fraction::Thousandths(number) => number <= 999,
            Fraction::TenMillionths(number) => number <= 9_999_999,
        }
    }
}

impl Position {
    /// Both kinds reach to 90 degrees and to 180 degrees, in numbers of their own.
    pub fn in_range(&self) -> bool {
        match *self {
            Position::Degrees {
                latitude,
                longitude,
                altitude,
            } => {
                (-900_000..=900_000).contains(&latitude)
                    && (-1_800_000..=1_800_000).contains(&longitude)
                    && altitude <= 9_999
            }
            Position::Minutes {
                latitude,
                longitude,
            } => {
                (-540_000..=540_000).contains(&latitude)
                    && (-1_080_000..=1_080_000).contains(&longitude)
            }
        }
    }
}

pub fn channel_in_range(channel: u32) -> bool {
    channel <= 1
}

pub fn offset_in_range(minutes: i32) -> bool {
    (-840..=840).contains(&minutes)
}

impl Record {
    /// "A record is bad if a value is outside these ranges, the day does not exist in its month,
    /// or utc and summer are both yes."
    pub fn is_bad(&self) -> bool {
        !self.values_in_range() || self.utc_and_summer()
    }

    pub fn utc_and_summer(&self) -> bool {
        self.utc == Some(true) && self.summer == Some(true)
    }

    fn values_in_range(&self) -> bool {
        time_in_range(self.hour, self.minute, self.second)
            && self.date.is_none_or(|date| date.in_range())
            && self.fraction.is_none_or(|fraction| fraction.in_range())
            && self.channel.is_none_or(channel_in_range)
            && self.offset.is_none_or(offset_in_range)
            && self.position.is_none_or(|position| position.in_range())
    }
}

#[cfg(test)]
mod tests {
    use super::*;

    #[test]
    fn the_empty_record_is_good() {
        assert!(!Record::default().is_bad());
    }

    #[test]
    fn an_offset_of_840_is_good_and_841_is_bad() {
        for (offset, bad) in [(840, false), (841, true), (-840, false), (-841, true)] {
            let record = Record {
                offset: Some(offset),
                ..Record::default()
            };
            assert_eq!(record.is_bad(), bad);
        }
    }

    #[test]
    fn each_kind_of_fraction_has_its_own_end() {
        for (fraction, bad) in [
            (Fraction::Hundredths(99), false),
            (Fraction::Hundredths(100), true),
            (Fraction::Thousandths(999), false),
            (Fraction::Thousandths(1_000), true),
            (Fraction::TenMillionths(9_999_999), false),
            (Fraction::TenMillionths(10_000_000), true),
        ] {
            let record = Record {
                fraction: Some(fraction),
                ..Record::default()
            };
            assert_eq!(record.is_bad(), bad, "{fraction:?}");
        }
    }

    #[test]
    fn each_kind_of_position_has_its_own_ends() {
        let degrees = |latitude, longitude, altitude| Position::Degrees {
            latitude,
            longitude,
            altitude,
        };
        let minutes = |latitude, longitude| Position::Minutes {
            latitude,
            longitude,
        };
        for sign in [-1, 1] {
            assert!(degrees(sign * 900_000, sign * 1_800_000, 9_999).in_range());
            assert!(!degrees(sign * 900_001, 0, 0).in_range());
            assert!(!degrees(0, sign * 1_800_001, 0).in_range());
            assert!(minutes(sign * 540_000, sign * 1_080_000).in_range());
            assert!(!minutes(sign * 540_001, 0).in_range());
            assert!(!minutes(0, sign * 1_080_001).in_range());
        }
        assert!(!degrees(0, 0, 10_000).in_range());
    }

    #[test]
    fn utc_and_summer_both_yes_is_bad() {
        let mut record = Record {
            utc: Some(true),
            summer: Some(true),
            ..Record::default()
        };
        assert!(record.is_bad());
        record.summer = None;
        assert!(!record.is_bad());
        record.summer = Some(false);
        assert!(!record.is_bad());
    }
}

//! A second of the calendar as a number, so that seconds can be counted from one to another.

use std::fmt;

use lindenscoop::{Date, Second};

use crate::calendar;

pub const MINUTE: u64 = 60;
pub const HOUR: u64 = 3600;
pub const DAY: u64 = 86_400;

/// The number of a minute since 1980 began, and the second in it, 60 in a leap second. A later one is greater.
#[derive(Clone, Copy, Debug, PartialEq, Eq, PartialOrd, Ord)]
pub struct Moment {
    pub minute: u64,
    pub second: u64,
}

impl Moment {
    /// That of a run's second; the library has none in a run that the calendar has not.
    pub fn of(second: &Second) -> Moment {
        let days = second
            .days_since_1980()
            .expect("a run has seconds of the calendar");
        let minutes = second.hour * 60 + second.minute;
        Moment {
            minute: u64::from(days) * (DAY / MINUTE) + u64::from(minutes),
            second: second.second.into(),
        }
    }

    /// Seconds since 1980 began, 60 to each minute. A second 60 has the number of the next minute's first one.
    pub fn number(self) -> u64 {
        self.minute * MINUTE + self.second
    }

    /// The second of a number; never a second 60.
    pub fn at(number: u64) -> Moment {
        Moment {
            minute: number / MINUTE,
            second: number % MINUTE,
        }
    }

    /// `2024-01-01`
    pub fn date(self) -> String {
        let days = u32::try_from(self.minute * MINUTE / DAY).ok();
        match days.and_then(calendar::date) {
            Some(date @ Date::Full { month, day, .. }) => {
                let year = date.full_year().expect("the calendar has this year");
                format!("{year}-{month:02}-{day:02}")
            }
            _ => unreachable!("only seconds of the calendar are told"),
        }
    }

    /// `12:00`
    pub fn hour_and_minute(self) -> String {
        format!("{:02}:{:02}", self.minute / 60 % 24, self.minute % 60)
    }
}

/// `2024-01-01 12:00:00`
impl fmt::Display for Moment {
    fn fmt(&self, f: &mut fmt::Formatter<'_>) -> fmt::Result {
        let (date, time) = (self.date(), self.hour_and_minute());
        write!(f, "{date} {time}:{:02}", self.second)
    }
}

#[cfg(test)]
pub mod tests {
    use super::*;

    /// The second that a text such as `2024-01-01 12:00:00` names.
    pub fn second(text: &str) -> Second {
        let parts: Vec<u32> = text
            .split(['-', ' ', ':'])
            .map(|part| part.parse().unwrap())
            .collect();
        let [year, month, day, hour, minute, second] = parts[..] else {
            panic!("{text}");
        };
        Second {
            yy: year % 100,
            month,
            day,
            hour,
            minute,
            second,
        }
    }

    pub fn moment(text: &str) -> Moment {
        Moment::of(&second(text))
    }

    #[test]
    fn told_as_it_was() {
        for text in [
            "1980-01-01 00:00:00",
            "1999-12-31 23:59:59",
            "2000-01-01 00:00:00",
            "2000-02-29 12:34:56",
            "2016-12-31 23:59:60",
            "2079-12-31 23:59:60",
        ] {
            assert_eq!(moment(text).to_string(), text);
        }
    }

    #[test]
    fn numbers() {
        assert_eq!(moment("1980-01-01 00:00:00").number(), 0);
        assert_eq!(moment("1980-01-01 00:00:60").number(), 60);
        assert_eq!(moment("1980-01-01 00:01:00").number(), 60);
        assert_eq!(moment("1980-01-02 00:00:01").number(), 86_401);
        assert_eq!(moment("2079-12-31 23:59:59").number(), 36_525 * 86_400 - 1);
        for number in [0, 59, 60, 86_399, 86_400, 3_155_759_999] {
            assert_eq!(Moment::at(number).number(), number);
            assert_eq!(moment(&Moment::at(number).to_string()).number(), number);
        }
    }

    #[test]
    fn order() {
        let ordered = [
            "1999-12-31 23:59:59",
            "1999-12-31 23:59:60",
            "2000-01-01 00:00:00",
            "2000-01-01 00:00:01",
        ];
        assert!(ordered.map(moment).is_sorted_by(|a, b| a < b));
    }
}

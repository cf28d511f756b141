//! What lies between the end of a run and the beginning of the next one.
//!
//! A minute is counted as 60 seconds: a leap second that was not heard may not have been, so it is never missing. Behind a second 60 comes
//! second 0 of the next minute.

use std::cmp::Ordering;

use crate::moment::{Moment, MINUTE};

#[derive(Clone, Copy, Debug, PartialEq, Eq)]
pub enum Between {
    /// Seconds that were not heard, one at least.
    Missing {
        first: Moment,
        last: Moment,
        seconds: u64,
    },
    /// The next run begins with the second that the last one ended with.
    Repeat,
    /// The next run begins so many seconds before the last one ended.
    Back { seconds: u64 },
}

/// What lies between the last second of a run and the first one of the next.
pub fn between(end: Moment, begin: Moment) -> Between {
    match begin.cmp(&end) {
        Ordering::Equal => Between::Repeat,
        Ordering::Less => Between::Back {
            seconds: seconds_back(begin, end),
        },
        Ordering::Greater => {
            let (from, to) = (number_behind(end), begin.number());
            Between::Missing {
                first: Moment::at(from),
                last: Moment::at(to - 1),
                seconds: to - from,
            }
        }
    }
}

/// The number of the second that comes next, where that is no second 60.
pub fn number_behind(second: Moment) -> u64 {
    second.minute * MINUTE + (second.second + 1).min(MINUTE)
}

/// How many seconds one is before the other. A second 60 that was heard is a second more, which the numbers do not have.
fn seconds_back(early: Moment, late: Moment) -> u64 {
    let heard_60 = early.second == MINUTE && late.minute > early.minute;
    late.number() - early.number() + u64::from(heard_60)
}

#[cfg(test)]
mod tests {
    use super::*;
    use crate::moment::tests::moment;

    fn missing(end: &str, begin: &str) -> (String, String, u64) {
        match between(moment(end), moment(begin)) {
            Between::Missing {
                first,
                last,
                seconds,
            } => (first.to_string(), last.to_string(), seconds),
            other => panic!("{other:?}"),
        }
    }

    /// The missing seconds in a minute's or an hour's neighbourhood on 1 January 2024.
    fn at(end: &str, begin: &str) -> (String, String, u64) {
        let day = "2024-01-01 ";
        let (first, last, seconds) = missing(&(day.to_string() + end), &(day.to_string() + begin));
        (first.replace(day, ""), last.replace(day, ""), seconds)
    }

    fn told(first: &str, last: &str, seconds: u64) -> (String, String, u64) {
        (first.to_string(), last.to_string(), seconds)
    }

    #[test]
    fn within_and_over_minutes() {
        assert_eq!(at("12:04:59", "12:05:10"), told("12:05:00", "12:05:09", 10));
        assert_eq!(at("12:00:00", "12:00:02"), told("12:00:01", "12:00:01", 1));
        assert_eq!(at("12:00:58", "12:01:00"), told("12:00:59", "12:00:59", 1));
        assert_eq!(at("12:00:59", "12:01:01"), told("12:01:00", "12:01:00", 1));
        assert_eq!(at("11:59:30", "12:00:30"), told("11:59:31", "12:00:29", 59));
        assert_eq!(
            at("00:00:00", "23:59:59"),
            told("00:00:01", "23:59:58", 86_398)
        );
    }

    #[test]
    fn leap_seconds() {
        assert_eq!(at("12:00:58", "12:00:60"), told("12:00:59", "12:00:59", 1));
        assert_eq!(at("12:00:60", "12:01:01"), told("12:01:00", "12:01:00", 1));
        assert_eq!(at("12:00:50", "12:00:60"), told("12:00:51", "12:00:59", 9));
        assert_eq!(at("12:00:60", "12:01:60"), told("12:01:00", "12:01:59", 60));
        assert_eq!(at("12:00:59", "12:01:60"), told("12:01:00", "12:01:59", 60));
        assert_eq!(at("12:00:60", "12:02:00"), told("12:01:00", "12:01:59", 60));
    }

    #[test]
    fn over_days_and_years() {
        assert_eq!(
            missing("1999-12-31 23:59:59", "2000-01-01 00:00:01"),
            told("2000-01-01 00:00:00", "2000-01-01 00:00:00", 1)
        );
        assert_eq!(
            missing("1999-12-31 23:59:58", "2000-01-01 00:00:00"),
            told("1999-12-31 23:59:59", "1999-12-31 23:59:59", 1)
        );
        assert_eq!(
            missing("2024-02-28 23:59:59", "2024-03-01 00:00:00"),
            told("2024-02-29 00:00:00", "2024-02-29 23:59:59", 86_400)
        );
        assert_eq!(
            missing("2023-02-28 23:59:00", "2023-03-01 00:00:00"),
            told("2023-02-28 23:59:01", "2023-02-28 23:59:59", 59)
        );
        assert_eq!(
            missing("1980-01-01 00:00:00", "2079-12-31 23:59:59"),
            told(
                "1980-01-01 00:00:01",
                "2079-12-31 23:59:58",
                36_525 * 86_400 - 2
            )
        );
    }

    /// Behind the calendar's last minute nothing is missing, since nothing can be heard there.
    #[test]
    fn end_of_the_calendar() {
        assert_eq!(
            missing("2079-12-31 23:59:58", "2079-12-31 23:59:60"),
            told("2079-12-31 23:59:59", "2079-12-31 23:59:59", 1)
        );
        let last = moment("2079-12-31 23:59:60");
        assert_eq!(between(last, last), Between::Repeat);
        let first = moment("1980-01-01 00:00:00");
        let seconds = 36_525 * 86_400;
        assert_eq!(between(last, first), Between::Back { seconds });
    }

    #[test]
    fn repeats_and_steps_back() {
        let told = |end: &str, begin: &str| between(moment(end), moment(begin));
        for second in [
            "2024-01-01 12:00:00",
            "2024-01-01 12:00:59",
            "2016-12-31 23:59:60",
        ] {
            assert_eq!(told(second, second), Between::Repeat);
        }
        let cases = [
            ("2024-01-01 12:00:01", "2024-01-01 12:00:00", 1),
            ("2024-10-27 02:59:59", "2024-10-27 02:00:00", 3599),
            ("2000-01-01 00:00:00", "1999-12-31 23:59:59", 1),
            ("2016-12-31 23:59:60", "2016-12-31 23:59:59", 1),
            ("2017-01-01 00:00:00", "2016-12-31 23:59:60", 1),
            ("2017-01-01 00:00:05", "2016-12-31 23:59:60", 6),
            ("2016-12-31 23:59:60", "2016-12-31 23:58:60", 61),
            ("2024-03-01 00:00:00", "2024-02-29 00:00:00", 86_400),
        ];
        for (end, begin, seconds) in cases {
            assert_eq!(told(end, begin), Between::Back { seconds }, "{end}");
        }
    }

    /// Each missing second of some hours around a change of year, counted one by one.
    #[test]
    fn counted_one_by_one() {
        let begin = moment("1999-12-31 23:00:00").number();
        for (end, next) in [
            (0, 2),
            (1, 60),
            (59, 61),
            (58, 3599),
            (3599, 3601),
            (0, 7199),
        ] {
            let (a, b) = (Moment::at(begin + end), Moment::at(begin + next));
            let between_them = (begin + end + 1..begin + next).map(Moment::at);
            let texts: Vec<String> = between_them.map(|second| second.to_string()).collect();
            let (first, last) = (texts[0].clone(), texts[texts.len() - 1].clone());
            let seconds = texts.len() as u64;
            assert_eq!(
                missing(&a.to_string(), &b.to_string()),
                (first, last, seconds)
            );
        }
    }
}

//! The Gregorian calendar from 1980 to 2079 (document 02, W-205), by counting. A year is given by its
//! two digits, 0..99, unless it is called a full one.

/// The calendar's first year.
const FIRST_YEAR: u32 = 1980;

/// "A two-digit year 80..99 now means 1980 to 1999, 00..79 means 2000 to 2079."
pub fn full_year(year: u32) -> u32 {
    if year >= 80 {
        1900 + year
    } else {
        2000 + year
    }
}

/// The Gregorian rule.
fn is_leap_year(full_year: u32) -> bool {
    full_year % 4 == 0 && (full_year % 100 != 0 || full_year % 400 == 0)
}

fn days_in_year(full_year: u32) -> u32 {
    if is_leap_year(full_year) {
        366
    } else {
        365
    }
}

/// The length of a month; `month` is 1..12.
pub fn days_in_month(year: u32, month: u32) -> u32 {
    match month {
        2 if is_leap_year(full_year(year)) => 29,
        2 => 28,
        4 | 6 | 9 | 11 => 30,
        _ => 31,
    }
}

pub fn date_exists(year: u32, month: u32, day: u32) -> bool {
    year <= 99
        && (1..=12).contains(&month)
        && (1..=31).contains(&day)
        && day <= days_in_month(year, month)
}

/// The day of year of an existing date; 1 January is 1.
pub fn day_of_year(year: u32, month: u32, day: u32) -> u32 {
    let mut before = 0;
    for earlier in 1..month {
        before += days_in_month(year, earlier);
    }
    before + day
}

/// Month and day of a day of year, if that year has such a day.
pub fn month_and_day(year: u32, day_of_year: u32) -> Option<(u32, u32)> {
    if day_of_year == 0 || day_of_year > days_in_year(full_year(year)) {
        return None;
    }
    let mut month = 1;
    let mut day = day_of_year;
    while day > days_in_month(year, month) {
        day -= days_in_month(year, month);
        month += 1;
    }
    Some((month, day))
}

/// The weekday of an existing date, 1 for Monday to 7 for Sunday.
pub fn weekday(year: u32, month: u32, day: u32) -> u32 {
    let years_before = FIRST_YEAR..full_year(year);
    let days_before: u32 = years_before.map(days_in_year).sum();
    let days_since_the_first = days_before + day_of_year(year, month, day) - 1;
    // 1 January 1980 was a Tuesday, number 2: one day after a Monday.
    (days_since_the_first + 1) % 7 + 1
}

#[cfg(test)]
mod tests {
    use super::*;

    /// The two digits of every year, in the order of the years that they name.
    fn years_in_order() -> impl Iterator<Item = u32> {
        (80..=99).chain(0..=79)
    }

    #[test]
    fn two_digits_name_every_year_once() {
        assert!(years_in_order().map(full_year).eq(1980..=2079));
    }

    #[test]
    fn known_weekdays() {
        for (year, month, day, known) in [
            (80, 1, 1, 2),
            (80, 2, 29, 5),
            (91, 1, 1, 2),
            (93, 7, 9, 5),
            (98, 1, 1, 4),
            (99, 12, 31, 5),
            (0, 1, 1, 6),
            (0, 2, 29, 2),
            (6, 11, 8, 3),
            (20, 10, 21, 3),
            (24, 1, 1, 1),
            (24, 2, 29, 4),
            (79, 12, 31, 7),
        ] {
            assert_eq!(weekday(year, month, day), known, "{year}-{month}-{day}");
        }
    }

    #[test]
    fn known_leap_years() {
        for year in [80, 84, 88, 92, 96, 0, 4, 24, 72, 76] {
            assert!(date_exists(year, 2, 29), "{year}");
            assert_eq!(month_and_day(year, 366), Some((12, 31)), "{year}");
        }
        for year in [81, 82, 83, 90, 91, 94, 98, 99, 1, 2, 3, 23, 50, 78, 79] {
            assert!(!date_exists(year, 2, 29), "{year}");
            assert_eq!(month_and_day(year, 366), None, "{year}");
        }
    }

    /// Zeller's congruence, a formula without any count: its 0 is Saturday, and January and February
    /// are months 13 and 14 of the year before.
    fn by_congruence(full_year: u32, month: u32, day: u32) -> u32 {
        let (full_year, month) = match month {
            1 | 2 => (full_year - 1, month + 12),
            _ => (full_year, month),
        };
        let (century, year) = (full_year / 100, full_year % 100);
        let sum = day + 13 * (month + 1) / 5 + year + year / 4 + century / 4 + 5 * century;
        (sum % 7 + 5) % 7 + 1
    }

    #[test]
    fn every_weekday_is_that_of_the_congruence() {
        for year in 0..=99 {
            for month in 1..=12 {
                for day in 1..=days_in_month(year, month) {
                    let expected = by_congruence(full_year(year), month, day);
                    assert_eq!(weekday(year, month, day), expected, "{year}-{month}-{day}");
                }
            }
        }
    }

    #[test]
    fn every_day_follows_the_day_before() {
        let (mut expected_weekday, mut number) = (2, 0);
        for year in years_in_order() {
            let mut expected_day = 1;
            for month in 1..=12 {
                for day in 1..=days_in_month(year, month) {
                    assert!(date_exists(year, month, day));
                    assert_eq!(day_of_year(year, month, day), expected_day);
                    assert_eq!(month_and_day(year, expected_day), Some((month, day)));
                    assert_eq!(weekday(year, month, day), expected_weekday);
                    expected_day += 1;
                    expected_weekday = expected_weekday % 7 + 1;
                    number += 1;
                }
                assert!(!date_exists(year, month, days_in_month(year, month) + 1));
                assert!(!date_exists(year, month, 0));
            }
            assert_eq!(expected_day - 1, days_in_year(full_year(year)));
            assert_eq!(month_and_day(year, expected_day), None);
        }
        assert_eq!(number, 36_525);
    }

    #[test]
    fn no_such_date() {
        assert!(!date_exists(24, 4, 31));
        assert!(!date_exists(91, 6, 31));
        assert!(!date_exists(24, 0, 1));
        assert!(!date_exists(24, 13, 1));
        assert!(!date_exists(100, 1, 1));
        assert!(!date_exists(u32::MAX, 2, 29));
    }
}

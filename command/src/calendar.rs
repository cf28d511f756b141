//! The date of a day's number. The library counts the days; how long a month is is not known here.

use std::sync::OnceLock;

use lindenscoop::Date;

/// The number of the first day of each month, from January 1980 on.
fn first_days() -> &'static [u32] {
    static DAYS: OnceLock<Vec<u32>> = OnceLock::new();
    DAYS.get_or_init(|| {
        let months = (0..).map_while(|months| first_of(months)?.days_since_1980());
        months.collect()
    })
}

/// The first day of the month so many months after January 1980.
fn first_of(months: u32) -> Option<Date> {
    Date::of_full_year(1980 + months / 12, months % 12 + 1, 1)
}

/// The date so many days after 1 January 1980, if the calendar has it.
pub fn date(number: u32) -> Option<Date> {
    let begun = first_days().partition_point(|first| *first <= number);
    let months = begun.checked_sub(1)?;
    let Date::Full { yy, month, .. } = first_of(u32::try_from(months).ok()?)? else {
        return None;
    };
    let day = number - first_days()[months] + 1;
    let date = Date::Full { yy, month, day };
    // behind the calendar's end the last month has no such day
    (date.days_since_1980() == Some(number)).then_some(date)
}

#[cfg(test)]
mod tests {
    use super::*;

    #[test]
    fn every_day_has_its_date() {
        let numbers = (0..36_525).map(|number| date(number)?.days_since_1980());
        assert!(numbers.eq((0..36_525).map(Some)));
        for number in [36_525, 36_526, 36_600, 1 << 31, u32::MAX] {
            assert_eq!(date(number), None);
        }
    }

    #[test]
    fn dates() {
        let full = Date::of_full_year;
        assert_eq!(date(0), full(1980, 1, 1));
        assert_eq!(date(59), full(1980, 2, 29));
        assert_eq!(date(7_304), full(1999, 12, 31));
        assert_eq!(date(7_305), full(2000, 1, 1));
        assert_eq!(date(16_348), full(2024, 10, 4));
        assert_eq!(date(36_524), full(2079, 12, 31));
    }
}

//! The record that a clock would send now: UTC by this computer's clock.

use std::time::{SystemTime, UNIX_EPOCH};

use lindenscoop::{Date, Form, Fraction, Position, Record, Refusal};

use crate::calendar;

/// The parts of a second, of the kind that the form carries.
fn fraction(form: Form, nanoseconds: u32) -> Fraction {
    match form {
        Form::SPA => Fraction::Thousandths(nanoseconds / 1_000_000),
        Form::RMC => Fraction::Hundredths(nanoseconds / 10_000_000),
        _ => Fraction::TenMillionths(nanoseconds / 100),
    }
}

/// The place of the papers' example, of the kind that the form carries.
fn position(form: Form) -> Position {
    match form {
        Form::RMC => Position::Minutes {
            latitude: 284_100,
            longitude: 48_375,
        },
        _ => Position::Degrees {
            latitude: 473_500,
            longitude: 80_625,
            altitude: 431,
        },
    }
}

/// Every field has a value, of the kind that the form carries; a clock in sync.
pub fn record(form: Form, now: SystemTime) -> Result<Record, Refusal> {
    let since = now
        .duration_since(UNIX_EPOCH)
        .map_err(|_| Refusal::BadRecord)?;
    let (days, second) = (since.as_secs() / 86_400, (since.as_secs() % 86_400) as u32);
    Ok(Record {
        hour: second / 3600,
        minute: second / 60 % 60,
        second: second % 60,
        date: Some(date(days).ok_or(Refusal::BadRecord)?),
        fraction: Some(fraction(form, since.subsec_nanos())),
        channel: Some(0),
        sync: Some(true),
        fix: Some(true),
        utc: Some(true),
        summer: Some(false),
        change: Some(false),
        leap: Some(false),
        offset: Some(0),
        position: Some(position(form)),
        dsp: Some(false),
        lsp: Some(false),
    })
}

/// 1 January 1980, from which the library counts, in days after 1 January 1970, from which this computer does.
const CALENDAR_BEGINS: u64 = 3_652;

/// The date so many days after 1 January 1970, if it is of 1980 to 2079.
fn date(days: u64) -> Option<Date> {
    calendar::date(u32::try_from(days.checked_sub(CALENDAR_BEGINS)?).ok()?)
}

#[cfg(test)]
mod tests {
    use std::time::Duration;

    use super::*;

    #[test]
    fn dates() {
        let full = |yy, month, day| Some(Date::Full { yy, month, day });
        assert_eq!(date(3_651), None);
        assert_eq!(date(3_652), full(80, 1, 1));
        assert_eq!(date(3_711), full(80, 2, 29));
        assert_eq!(date(10_956), full(99, 12, 31));
        assert_eq!(date(10_957), full(0, 1, 1));
        assert_eq!(date(20_000), full(24, 10, 4));
        assert_eq!(date(40_176), full(79, 12, 31));
        assert_eq!(date(40_177), None);
    }

    #[test]
    fn every_day_has_its_date() {
        let numbers = (3_652..=40_176).map(|days| date(days)?.days_since_1980());
        assert!(numbers.eq((0..36_525).map(Some)));
        for days in [0, 1, 3_651, 40_178, 1 << 31, 1 << 32, (1 << 32) + 3_652] {
            assert_eq!(date(days), None);
        }
        assert_eq!(date(u64::MAX), None);
    }

    /// A string can be made of it in every form, and the parts of a second are cut off, not rounded up.
    #[test]
    fn kinds() {
        for form in Form::ALL {
            let now = UNIX_EPOCH + Duration::new(1_709_251_199, 999_999_999);
            let record = record(*form, now).unwrap();
            let mut out = Vec::new();
            assert!(lindenscoop::append(*form, &record, &mut out).is_ok());
            let fraction = record.fraction.unwrap();
            let nines = 10_u32.pow(fraction.digits() as u32) - 1;
            assert_eq!((record.second, fraction.value()), (59, nines), "{form}");
        }
    }

    #[test]
    fn times() {
        let at = |seconds| record(Form::STANDARD, UNIX_EPOCH + Duration::from_secs(seconds));
        let told = |record: Record| (record.date, [record.hour, record.minute, record.second]);
        let leap_day = Date::of_full_year(2024, 2, 29);
        assert_eq!(at(1_709_251_199).map(told), Ok((leap_day, [23, 59, 59])));
        let next = Date::of_full_year(2024, 3, 1);
        assert_eq!(at(1_709_251_200).map(told), Ok((next, [0, 0, 0])));
        assert_eq!(at(315_532_799), Err(Refusal::BadRecord));
        assert_eq!(at(3_471_292_800), Err(Refusal::BadRecord));
    }
}

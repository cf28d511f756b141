//! The whole calendar as requests, so that no date is left to a draw, and each year in every form.

use crate::forms::{string_length, FRAME_FORMS, LONGEST_BLOCK};
use crate::frame::{put, put_parity};
use crate::generate::{
    good_record, put_date, put_digits, put_true_sum, string_of, weekday_place, Random,
};
use crate::protocol::{hex, spell_fields};
use crate::record::{Date, Record};

const RACAL: u32 = 5;
const SYSPLEX: u32 = 6;
const COMPUTIME: u32 = 7;

/// The forms in which a full date stands in digits.
const DATED_FORMS: [u32; 9] = [1, 2, 3, 4, 5, 7, 9, 10, 12];

/// Year, month and day.
type Numbers = (u32, u32, u32);

/// Every year, and months and days from 0 to one beyond the last.
fn dates() -> impl Iterator<Item = Numbers> {
    let months = |year| (0..=13).map(move |month| (year, month));
    let days = |(year, month)| (0..=32).map(move |day| (year, month, day));
    (0..=99).flat_map(months).flat_map(days)
}

/// The days of a year that tell its weekdays and whether it has a leap day.
const TELLING_DAYS: [(u32, u32); 5] = [(1, 1), (2, 28), (2, 29), (3, 1), (12, 31)];

/// Those days of every year.
fn telling_dates() -> impl Iterator<Item = Numbers> {
    (0..=99).flat_map(|year| TELLING_DAYS.map(|(month, day)| (year, month, day)))
}

fn full((year, month, day): Numbers) -> Date {
    Date::Full { year, month, day }
}

/// Every number that three digits can tell.
fn days_of_year() -> impl Iterator<Item = u32> {
    0..=999
}

/// A record that the form can write, always the same, in which the date is then replaced.
fn one_record(form: u32) -> Record {
    let date = Some(full((24, 1, 1)));
    let record = good_record(form, &mut Random::new(0));
    Record { date, ..record }
}

/// Its string.
fn one_string(form: u32) -> Vec<u8> {
    string_of(form, &one_record(form))
}

fn read_request(form: u32, input: &[u8]) -> String {
    format!("read {form} {}", hex(input))
}

/// Each date; in a form that has a weekday, with the weekdays 0 to 8.
fn dates_read(form: u32, dates: impl Iterator<Item = Numbers>) -> impl Iterator<Item = String> {
    let mut s = one_string(form);
    let weekday = weekday_place(form);
    let last = if weekday.is_some() { 8 } else { 0 };
    let numbers = move |date| (0..=last).map(move |number| (date, number));
    dates.flat_map(numbers).map(move |(date, number)| {
        put_date(form, &mut s, date);
        if let Some((place, width)) = weekday {
            put_digits(&mut s, place, width, number);
        }
        put_true_sum(form, &mut s);
        read_request(form, &s)
    })
}

/// All that the elements of year and day of year can tell: the days 0 to 399 of every year, since
/// the hundreds have two elements, and every digit over 9.
fn frames_read(form: u32) -> impl Iterator<Item = String> {
    let mut e = one_string(form);
    let days = |year| (0..1024).map(move |day| (year, day));
    (0..256).flat_map(days).map(move |(year, day)| {
        put(&mut e, 30..=33, day % 16);
        put(&mut e, 35..=38, day / 16 % 16);
        put(&mut e, 40..=41, day / 256);
        put(&mut e, 50..=53, year % 16);
        put(&mut e, 55..=58, year / 16);
        put_parity(&mut e);
        read_request(form, &e)
    })
}

fn days_of_year_read() -> impl Iterator<Item = String> {
    let mut s = one_string(SYSPLEX);
    days_of_year().map(move |day| {
        put_digits(&mut s, 1, 3, day);
        read_request(SYSPLEX, &s)
    })
}

fn written(form: u32, dates: impl Iterator<Item = Date>) -> impl Iterator<Item = String> {
    let mut record = one_record(form);
    let length = string_length(form).unwrap_or(LONGEST_BLOCK);
    dates.map(move |date| {
        record.date = Some(date);
        format!("writeraw {form} {} {length}", spell_fields(&record))
    })
}

fn all_written(form: u32) -> impl Iterator<Item = String> {
    written(form, dates().map(full))
}

/// Each year in a form.
fn years(form: u32) -> impl Iterator<Item = String> {
    dates_read(form, telling_dates()).chain(written(form, telling_dates().map(full)))
}

/// Reads and writes of every date and of every day of year, in the frames too, and of each year in
/// the other forms.
pub fn requests() -> impl Iterator<Item = String> {
    let forms_written = [SYSPLEX, COMPUTIME].into_iter().chain(FRAME_FORMS);
    dates_read(RACAL, dates())
        .chain(dates_read(COMPUTIME, dates()))
        .chain(FRAME_FORMS.into_iter().flat_map(frames_read))
        .chain(days_of_year_read())
        .chain(forms_written.flat_map(all_written))
        .chain(written(SYSPLEX, days_of_year().map(Date::DayOfYear)))
        .chain(DATED_FORMS.into_iter().flat_map(years))
}

#[cfg(test)]
mod tests {
    use super::*;
    use crate::forms::FORMS;
    use crate::protocol::numbers_answered;

    fn accepted(requests: impl Iterator<Item = String>) -> usize {
        numbers_answered(requests)[&0]
    }

    #[test]
    fn each_day_is_accepted_once() {
        // A hundred years, of which 25 have a leap day.
        assert_eq!(accepted(dates_read(RACAL, dates())), 36_525);
        assert_eq!(accepted(all_written(SYSPLEX)), 36_525);
        // The years 00 to 03, which have one leap day.
        let four_years = dates().take(4 * 14 * 33);
        assert_eq!(accepted(dates_read(COMPUTIME, four_years)), 1_461);
        for form in FRAME_FORMS {
            // The years 00 to 09, which have three, and six years whose last digit is over 9.
            assert_eq!(accepted(frames_read(form).take(16 * 1024)), 3_653);
            assert_eq!(accepted(all_written(form)), 36_525);
        }
    }

    #[test]
    fn each_day_of_year_is_accepted_once() {
        assert_eq!(accepted(days_of_year_read()), 366);
        let days = days_of_year().map(Date::DayOfYear);
        assert_eq!(accepted(written(SYSPLEX, days)), 366);
    }

    #[test]
    fn each_year_is_read_and_written_in_each_form() {
        // Five days of a hundred years, less the leap days of 75.
        let (there, not) = (425, 75);
        for form in DATED_FORMS {
            let read = if weekday_place(form).is_some() {
                // Of nine weekdays one is the date's, and 0 and 8 are none.
                vec![(0, there), (4, 9 * not + 2 * there), (5, 6 * there)]
            } else {
                vec![(0, there), (4, not)]
            };
            let met = numbers_answered(dates_read(form, telling_dates()));
            assert_eq!(met, read.into_iter().collect(), "form {form}");
            let met = numbers_answered(written(form, telling_dates().map(full)));
            assert_eq!(met, [(0, there), (7, not)].into(), "form {form}");
        }
    }

    #[test]
    fn no_form_is_left_out() {
        let mut forms = [&DATED_FORMS[..], &FRAME_FORMS, &[SYSPLEX]].concat();
        forms.sort_unstable();
        assert!(forms.into_iter().eq(FORMS));
        assert_eq!(DATED_FORMS.into_iter().flat_map(years).count(), 25_000);
    }
}

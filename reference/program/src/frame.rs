//! Section "The frame" of document 01 and W-203 of document 02: forms 8 and 11, one hundred
//! elements sent as bytes 0, 1, or 2 for a mark. The two forms differ in their sign rule alone.

use std::ops::RangeInclusive;

use crate::calendar;
use crate::record::{offset_in_range, time_in_range, Date, Record};
use crate::serial::{full_date, require};

const MARK: u8 = 2;

/// What element 64 tells of the offset. "State the layout once over the sign rule": all else in
/// this file is the same for both.
#[derive(Clone, Copy, Debug, PartialEq, Eq)]
pub enum SignRule {
    /// IEEE 1344: "sign 1 for an offset above zero, 0 for zero or below".
    OneAboveZero,
    /// IEEE C37.118, "the sign as 01 had it": "Sign 0 means an offset of zero or more."
    OneBelowZero,
}

impl SignRule {
    /// Element 64 of an offset.
    fn sign(self, offset: i32) -> u32 {
        u32::from(match self {
            SignRule::OneAboveZero => offset > 0,
            SignRule::OneBelowZero => offset < 0,
        })
    }

    /// The offset of so many minutes with this element 64.
    fn offset(self, sign: u8, minutes: i32) -> i32 {
        let below_zero = match self {
            SignRule::OneAboveZero => sign == 0,
            SignRule::OneBelowZero => sign == 1,
        };
        if below_zero {
            -minutes
        } else {
            minutes
        }
    }
}

/// "Marks stand at 0, 9, 19, .. 99."
pub(crate) fn is_mark(place: usize) -> bool {
    place == 0 || place % 10 == 9
}

/// "The rest is 0": the places that no list of the section names. Element 61 is named; that it
/// must be 0 is a matter of range (row 4).
pub(crate) fn is_always_zero(place: usize) -> bool {
    matches!(
        place,
        5 | 14 | 18 | 24 | 27 | 28 | 34 | 42..=48 | 54 | 76..=78 | 98
    )
}

fn is_spelled(place: usize, element: u8) -> bool {
    if is_mark(place) {
        element == MARK
    } else if is_always_zero(place) {
        element == 0
    } else {
        element <= 1
    }
}

/// The number whose bits stand at these places, low bit first.
pub(crate) fn bits(elements: &[u8], places: RangeInclusive<usize>) -> u32 {
    let mut value = 0;
    let mut weight = 1;
    for place in places {
        value += weight * u32::from(elements[place]);
        weight *= 2;
    }
    value
}

/// "Here the ones at 1..75 are even in number."
fn parity_is_even(elements: &[u8]) -> bool {
    let ones = elements[1..=75].iter().filter(|e| **e == 1).count();
    ones % 2 == 0
}

/// All BCD digits of the frame: seconds, minutes, hours, day of year, year.
pub(crate) fn digits(e: &[u8]) -> [u32; 11] {
    [
        bits(e, 1..=4),
        bits(e, 6..=8),
        bits(e, 10..=13),
        bits(e, 15..=17),
        bits(e, 20..=23),
        bits(e, 25..=26),
        bits(e, 30..=33),
        bits(e, 35..=38),
        bits(e, 40..=41),
        bits(e, 50..=53),
        bits(e, 55..=58),
    ]
}

pub fn read_frame(rule: SignRule, e: &[u8]) -> Result<Record, u32> {
    for (place, element) in e.iter().enumerate() {
        require(is_spelled(place, *element), 3)?;
    }

    require(parity_is_even(e), 6)?;

    let digit = digits(e);
    require(digit.iter().all(|value| *value <= 9), 4)?;
    let second = digit[0] + 10 * digit[1];
    let minute = digit[2] + 10 * digit[3];
    let hour = digit[4] + 10 * digit[5];
    let day_of_year = digit[6] + 10 * digit[7] + 100 * digit[8];
    let year = digit[9] + 10 * digit[10];
    let offset_minutes = (60 * bits(e, 65..=68) + 30 * bits(e, 70..=70)) as i32;
    let tfom = bits(e, 71..=74);
    require(time_in_range(hour, minute, second), 4)?;
    // Day 366 of a common year is no such date, hence 4 as well.
    let (month, day) = calendar::month_and_day(year, day_of_year).ok_or(4u32)?;
    require(e[61] == 0, 4)?;
    require(offset_in_range(offset_minutes), 4)?;
    require(tfom == 0 || tfom == 15, 4)?;

    let seconds_of_the_day = bits(e, 80..=88) + 512 * bits(e, 90..=97);
    require(seconds_of_the_day == hour * 3600 + minute * 60 + second, 5)?;
    // "Sign 1 on a zero stays 5", in both forms.
    require(!(e[64] == 1 && offset_minutes == 0), 5)?;
    Ok(Record {
        date: Some(Date::Full { year, month, day }),
        hour,
        minute,
        second,
        sync: Some(tfom == 0),
        summer: Some(e[63] == 1),
        offset: Some(rule.offset(e[64], offset_minutes)),
        dsp: Some(e[62] == 1),
        lsp: Some(e[60] == 1),
        ..Record::default()
    })
}

/// Puts a number at these places, low bit first.
pub(crate) fn put(elements: &mut [u8], places: RangeInclusive<usize>, value: u32) {
    let mut rest = value;
    for place in places {
        elements[place] = (rest % 2) as u8;
        rest /= 2;
    }
}

pub(crate) fn put_parity(elements: &mut [u8]) {
    elements[75] = 0;
    if !parity_is_even(elements) {
        elements[75] = 1;
    }
}

pub fn write_frame(rule: SignRule, record: &Record) -> Vec<u8> {
    let (year, month, day) = full_date(record);
    let day_of_year = calendar::day_of_year(year, month, day);
    let offset = record.offset.unwrap_or_default();
    let half_hours = offset.unsigned_abs() / 30;
    let seconds_of_the_day = record.hour * 3600 + record.minute * 60 + record.second;

    let mut e = vec![0; 100];
    for (place, element) in e.iter_mut().enumerate() {
        if is_mark(place) {
            *element = MARK;
        }
    }
    put(&mut e, 1..=4, record.second % 10);
    put(&mut e, 6..=8, record.second / 10);
    put(&mut e, 10..=13, record.minute % 10);
    put(&mut e, 15..=17, record.minute / 10);
    put(&mut e, 20..=23, record.hour % 10);
    put(&mut e, 25..=26, record.hour / 10);
    put(&mut e, 30..=33, day_of_year % 10);
    put(&mut e, 35..=38, day_of_year / 10 % 10);
    put(&mut e, 40..=41, day_of_year / 100);
    put(&mut e, 50..=53, year % 10);
    put(&mut e, 55..=58, year / 10);
    put(&mut e, 60..=60, u32::from(record.lsp == Some(true)));
    put(&mut e, 62..=62, u32::from(record.dsp == Some(true)));
    put(&mut e, 63..=63, u32::from(record.summer == Some(true)));
    put(&mut e, 64..=64, rule.sign(offset));
    put(&mut e, 65..=68, half_hours / 2);
    put(&mut e, 70..=70, half_hours % 2);
    put(
        &mut e,
        71..=74,
        if record.sync == Some(true) { 0 } else { 15 },
    );
    put(&mut e, 80..=88, seconds_of_the_day % 512);
    put(&mut e, 90..=97, seconds_of_the_day / 512);
    put_parity(&mut e);
    e
}

#[cfg(test)]
mod tests {
    use super::*;

    #[test]
    fn every_place_has_one_meaning() {
        let named = [
            1..=4,
            6..=8,
            10..=13,
            15..=17,
            20..=23,
            25..=26,
            30..=33,
            35..=38,
            40..=41,
            50..=53,
            55..=58,
            60..=68,
            70..=75,
            80..=88,
            90..=97,
        ];
        for place in 0..100 {
            let uses = named.iter().filter(|list| list.contains(&place)).count()
                + usize::from(is_mark(place))
                + usize::from(is_always_zero(place));
            assert_eq!(uses, 1, "element {place}");
        }
    }
}

//! The NMEA RMC string, form 12 (document 02, W-204; document 002, section 6.3.6), 65 bytes:
//! `$GPRMC,hhmmss.ss,A,bbbb.bb,n,lllll.ll,e,0.0,0.0,ddmmyy,0.0,E*hh<CR><LF>`.
//!
//! Where W-204 names a choice, it decides over the manuals: they have spaces for leading zeros of
//! the position and leave the variation's letter open, and two of them print four digits of
//! longitude before the point. The order of the tests is that of `serial`: 3, 6, 4, 5.

use std::ops::Range;

use crate::minutes::{size_of, spell_size, LATITUDE_DIGITS, LONGITUDE_DIGITS};
use crate::record::{Fraction, Position, Record};
use crate::serial::{
    check_ranges, date_at, exclusive_or, full_date, is_sum_digit, number, record_of, require,
    spell_sum, spelled, time_at,
};

/// "The zeros for speed, course and variation are fixed bytes, the variation letter is `E`."
const LAYOUT: &[u8; 65] = b"$GPRMC,######.##,~,####.##,~,#####.##,~,0.0,0.0,######,0.0,E*~~\r\n";

/// "The bytes between `$` and `*`": neither of the two is counted.
pub(crate) const SUMMED: Range<usize> = 1..60;

/// Where the two digits of the sum stand.
pub(crate) const SUM: Range<usize> = 61..63;

/// A size with its letter's sign.
fn signed(size: i32, below_zero: bool) -> i32 {
    if below_zero {
        -size
    } else {
        size
    }
}

fn letters_are_right(s: &[u8]) -> bool {
    let (status, north_or_south, east_or_west) = (s[17], s[27], s[38]);
    (status == b'A' || status == b'V')
        && (north_or_south == b'N' || north_or_south == b'S')
        && (east_or_west == b'E' || east_or_west == b'W')
}

pub fn read_rmc(s: &[u8]) -> Result<Record, u32> {
    require(spelled(s, LAYOUT), 3)?;
    require(letters_are_right(s), 3)?;
    require(s[SUM].iter().all(|digit| is_sum_digit(*digit)), 3)?;

    let sum = spell_sum(exclusive_or(&s[SUMMED]));
    require(sum.as_bytes() == &s[SUM], 6)?;

    let date = date_at(s, 52, 50, 48);
    let time = time_at(s, 7, 9, 11);
    check_ranges(date, time)?;
    let latitude = size_of(&s[19..26])?;
    let longitude = size_of(&s[29..37])?;
    let unsigned = Position::Minutes {
        latitude,
        longitude,
    };
    require(unsigned.in_range(), 4)?;

    let (south, west) = (s[27] == b'S', s[38] == b'W');
    require(!(south && latitude == 0), 5)?;
    require(!(west && longitude == 0), 5)?;
    Ok(Record {
        fraction: Some(Fraction::Hundredths(number(&s[14..16]))),
        // "Status becomes sync": A is "time data valid", V "time data not valid".
        sync: Some(s[17] == b'A'),
        position: Some(Position::Minutes {
            latitude: signed(latitude, south),
            longitude: signed(longitude, west),
        }),
        ..record_of(date, time)
    })
}

/// The bytes between `$` and `*`.
fn summed_bytes(record: &Record, hundredths: u32, latitude: i32, longitude: i32) -> String {
    let (yy, mm, dd) = full_date(record);
    let (hour, minute, second) = (record.hour, record.minute, record.second);
    let status = if record.sync == Some(true) { 'A' } else { 'V' };
    let n = if latitude < 0 { 'S' } else { 'N' };
    let e = if longitude < 0 { 'W' } else { 'E' };
    let latitude = spell_size(latitude, LATITUDE_DIGITS);
    let longitude = spell_size(longitude, LONGITUDE_DIGITS);
    format!(
        "GPRMC,{hour:02}{minute:02}{second:02}.{hundredths:02},{status},{latitude},{n},\
         {longitude},{e},0.0,0.0,{dd:02}{mm:02}{yy:02},0.0,E"
    )
}

pub fn write_rmc(record: &Record) -> Vec<u8> {
    let (hundredths, latitude, longitude) = match (record.fraction, record.position) {
        (
            Some(Fraction::Hundredths(hundredths)),
            Some(Position::Minutes {
                latitude,
                longitude,
            }),
        ) => (hundredths, latitude, longitude),
        _ => unreachable!("test 8 has been passed"),
    };
    let summed = summed_bytes(record, hundredths, latitude, longitude);
    let sum = spell_sum(exclusive_or(summed.as_bytes()));
    format!("${summed}*{sum}\r\n").into_bytes()
}

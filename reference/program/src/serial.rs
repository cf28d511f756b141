//! The serial strings of forms 1 to 7 and 10; that of form 12 stands in `rmc`. Every reader gets an
//! input of the right length and makes its passes in the order 3 (spelling), 6 (sum), 4 (ranges),
//! 5 (disagreement). Every writer gets a record that has passed the tests 7, 8 and 9.

use crate::calendar;
use crate::record::{
    channel_in_range, offset_in_range, time_in_range, Date, Fraction, Position, Record,
};

/// `Err(refusal)` unless the condition holds.
pub(crate) fn require(holds: bool, refusal: u32) -> Result<(), u32> {
    if holds {
        Ok(())
    } else {
        Err(refusal)
    }
}

/// Whether the input has the pattern's bytes, where `#` stands for any digit and `~` for any byte.
pub(crate) fn spelled(input: &[u8], pattern: &[u8]) -> bool {
    input.len() == pattern.len()
        && input
            .iter()
            .zip(pattern)
            .all(|(byte, wanted)| match wanted {
                b'#' => byte.is_ascii_digit(),
                b'~' => true,
                _ => byte == wanted,
            })
}

/// The value of decimal digits; a padding space counts as a zero.
pub(crate) fn number(digits: &[u8]) -> u32 {
    let mut value = 0;
    for byte in digits {
        let digit = if *byte == b' ' { 0 } else { byte - b'0' };
        value = value * 10 + u32::from(digit);
    }
    value
}

/// Hour, minute and second that stand at three places, two digits each.
pub(crate) fn time_at(s: &[u8], hour: usize, minute: usize, second: usize) -> (u32, u32, u32) {
    (
        number(&s[hour..hour + 2]),
        number(&s[minute..minute + 2]),
        number(&s[second..second + 2]),
    )
}

/// Year, month and day that stand at three places, two digits each.
pub(crate) fn date_at(s: &[u8], year: usize, month: usize, day: usize) -> (u32, u32, u32) {
    (
        number(&s[year..year + 2]),
        number(&s[month..month + 2]),
        number(&s[day..day + 2]),
    )
}

/// Refusal 4 for a time or a full date out of range.
pub(crate) fn check_ranges(date: (u32, u32, u32), time: (u32, u32, u32)) -> Result<(), u32> {
    require(calendar::date_exists(date.0, date.1, date.2), 4)?;
    require(time_in_range(time.0, time.1, time.2), 4)
}

/// A record with a full date and a time, all else absent.
pub(crate) fn record_of(date: (u32, u32, u32), time: (u32, u32, u32)) -> Record {
    Record {
        date: Some(Date::Full {
            year: date.0,
            month: date.1,
            day: date.2,
        }),
        hour: time.0,
        minute: time.1,
        second: time.2,
        ..Record::default()
    }
}

/// Form 1: `<STX>D:dd.mm.yy;T:w;U:hh.mm.ss;uvxy<ETX>`.
pub fn read_standard(s: &[u8]) -> Result<Record, u32> {
    require(spelled(s, b"\x02D:##.##.##;T:#;U:##.##.##;~~~~\x03"), 3)?;
    let (u, v, x, y) = (s[27], s[28], s[29], s[30]);
    require(u == b'#' || u == b' ', 3)?;
    require(v == b'*' || v == b' ', 3)?;
    require(x == b'U' || x == b' ' || x == b'S', 3)?;
    require(y == b'!' || y == b'A' || y == b' ', 3)?;

    let date = date_at(s, 9, 6, 3);
    let time = time_at(s, 18, 21, 24);
    let weekday = number(&s[14..15]);
    check_ranges(date, time)?;
    require((1..=7).contains(&weekday), 4)?;

    require(weekday == calendar::weekday(date.0, date.1, date.2), 5)?;
    Ok(Record {
        sync: Some(u == b' '),
        fix: Some(v == b' '),
        utc: Some(x == b'U'),
        summer: Some(x == b'S'),
        change: Some(y == b'!'),
        leap: Some(y == b'A'),
        ..record_of(date, time)
    })
}

/// Form 2: `CHx dd.mm.yy hh:mm:ss.fffffff<CR><LF>`.
pub fn read_capture(s: &[u8]) -> Result<Record, u32> {
    require(spelled(s, b"CH# ##.##.## ##:##:##.#######\r\n"), 3)?;

    let channel = number(&s[2..3]);
    let date = date_at(s, 10, 7, 4);
    let time = time_at(s, 13, 16, 19);
    require(channel_in_range(channel), 4)?;
    check_ranges(date, time)?;
    Ok(Record {
        channel: Some(channel),
        fraction: Some(Fraction::TenMillionths(number(&s[22..29]))),
        ..record_of(date, time)
    })
}

/// Whether leading zeros are spaces and the last digit stays.
fn padded(field: &[u8]) -> bool {
    let spaces = field.iter().take_while(|byte| **byte == b' ').count();
    let digits = &field[spaces..];
    let only_digits = digits.iter().all(|byte| byte.is_ascii_digit());
    let zero_in_front = digits.len() > 1 && digits[0] == b'0';
    !digits.is_empty() && only_digits && !zero_in_front
}

/// Form 3: `<STX>dd.mm.yy; w; hh:mm:ss; voo:oo; acdfg i;bbb.bbbbn lll.lllle hhhhm<ETX>`.
pub fn read_erlangen(s: &[u8]) -> Result<Record, u32> {
    let pattern = b"\x02##.##.##; #; ##:##:##; ~##:##; ~~~~~ ~;~~~.####~ ~~~.####~ ~~~~m\x03";
    require(spelled(s, pattern), 3)?;
    let (sign, a, c, d, f, g, i) = (s[24], s[32], s[33], s[34], s[35], s[36], s[38]);
    let (north_or_south, east_or_west) = (s[48], s[58]);
    require(sign == b'+' || sign == b'-', 3)?;
    require(a == b'#' || a == b' ', 3)?;
    require(c == b'*' || c == b' ', 3)?;
    require(d == b'S' || d == b' ', 3)?;
    require(f == b'!' || f == b' ', 3)?;
    require(g == b'A' || g == b' ', 3)?;
    require(i == b'L' || i == b' ', 3)?;
    require(north_or_south == b'N' || north_or_south == b'S', 3)?;
    require(east_or_west == b'E' || east_or_west == b'W', 3)?;
    require(padded(&s[40..43]), 3)?;
    require(padded(&s[50..53]), 3)?;
    require(padded(&s[60..64]), 3)?;

    let date = date_at(s, 7, 4, 1);
    let weekday = number(&s[11..12]);
    let time = time_at(s, 14, 17, 20);
    let offset_hours = number(&s[25..27]) as i32;
    let offset_minutes = number(&s[28..30]) as i32;
    let offset = offset_hours * 60 + offset_minutes;
    let latitude = (number(&s[40..43]) * 10_000 + number(&s[44..48])) as i32;
    let longitude = (number(&s[50..53]) * 10_000 + number(&s[54..58])) as i32;
    let altitude = number(&s[60..64]);
    let unsigned = Position::Degrees {
        latitude,
        longitude,
        altitude,
    };
    check_ranges(date, time)?;
    require((1..=7).contains(&weekday), 4)?;
    require(offset_minutes <= 59, 4)?;
    require(offset_in_range(offset), 4)?;
    require(unsigned.in_range(), 4)?;

    require(weekday == calendar::weekday(date.0, date.1, date.2), 5)?;
    require((i == b'L') == (time.2 == 60), 5)?;
    require(!(sign == b'-' && offset == 0), 5)?;
    require(!(north_or_south == b'S' && latitude == 0), 5)?;
    require(!(east_or_west == b'W' && longitude == 0), 5)?;
    Ok(Record {
        offset: Some(if sign == b'-' { -offset } else { offset }),
        sync: Some(a == b' '),
        fix: Some(c == b' '),
        summer: Some(d == b'S'),
        change: Some(f == b'!'),
        leap: Some(g == b'A'),
        position: Some(Position::Degrees {
            latitude: if north_or_south == b'S' {
                -latitude
            } else {
                latitude
            },
            longitude: if east_or_west == b'W' {
                -longitude
            } else {
                longitude
            },
            altitude,
        }),
        ..record_of(date, time)
    })
}

/// The sum of the strings that have one.
pub(crate) fn exclusive_or(bytes: &[u8]) -> u8 {
    bytes.iter().fold(0, |sum, byte| sum ^ byte)
}

/// "Two digits 0-9, A-F": small letters are none.
pub(crate) fn is_sum_digit(byte: u8) -> bool {
    byte.is_ascii_digit() || (b'A'..=b'F').contains(&byte)
}

pub(crate) fn spell_sum(sum: u8) -> String {
    format!("{sum:02X}")
}

/// The exclusive-or of the 29 bytes before the sum, the last colon among them.
pub fn spa_sum(s: &[u8]) -> u8 {
    exclusive_or(&s[0..29])
}

/// Form 4: `>900WD:yy-mm-dd hh.mm;ss.fff:cc<CR>`.
pub fn read_spa(s: &[u8]) -> Result<Record, u32> {
    require(spelled(s, b">900WD:##-##-## ##.##;##.###:~~\r"), 3)?;
    require(is_sum_digit(s[29]) && is_sum_digit(s[30]), 3)?;

    require(spell_sum(spa_sum(s)).as_bytes() == &s[29..31], 6)?;

    let date = date_at(s, 7, 10, 13);
    let time = time_at(s, 16, 19, 22);
    check_ranges(date, time)?;
    Ok(Record {
        fraction: Some(Fraction::Thousandths(number(&s[25..28]))),
        ..record_of(date, time)
    })
}

/// Form 5: `XGUyymmddhhmmss<CR>`.
pub fn read_racal(s: &[u8]) -> Result<Record, u32> {
    require(spelled(s, b"XGU############\r"), 3)?;

    let date = date_at(s, 3, 5, 7);
    let time = time_at(s, 9, 11, 13);
    check_ranges(date, time)?;
    Ok(record_of(date, time))
}

/// Form 6: `<SOH>ddd:hh:mm:ssq<CR><LF>`.
pub fn read_sysplex(s: &[u8]) -> Result<Record, u32> {
    require(spelled(s, b"\x01###:##:##:##~\r\n"), 3)?;
    let q = s[13];
    require(q == b' ' || q == b'?', 3)?;

    let date = Date::DayOfYear(number(&s[1..4]));
    let (hour, minute, second) = time_at(s, 5, 8, 11);
    require(date.in_range(), 4)?;
    require(time_in_range(hour, minute, second), 4)?;
    Ok(Record {
        date: Some(date),
        hour,
        minute,
        second,
        sync: Some(q == b' '),
        ..Record::default()
    })
}

/// Form 7: `T:yy:mm:dd:ww:hh:mm:ss<CR><LF>`.
pub fn read_computime(s: &[u8]) -> Result<Record, u32> {
    require(spelled(s, b"T:##:##:##:##:##:##:##\r\n"), 3)?;

    let date = date_at(s, 2, 5, 8);
    let weekday = number(&s[11..13]);
    let time = time_at(s, 14, 17, 20);
    check_ranges(date, time)?;
    require((1..=7).contains(&weekday), 4)?;

    require(weekday == calendar::weekday(date.0, date.1, date.2), 5)?;
    Ok(record_of(date, time))
}

/// A word of the zone in a SAT string, and what it says.
struct Zone {
    word: &'static str,
    utc: bool,
    summer: bool,
}

/// The words of document 004, section 12.2.2, filled up to four letters with spaces behind. The
/// German words of the other two manuals are none.
const ZONES: [Zone; 3] = [
    Zone {
        word: "UTC ",
        utc: true,
        summer: false,
    },
    Zone {
        word: "CET ",
        utc: false,
        summer: false,
    },
    Zone {
        word: "CEST",
        utc: false,
        summer: true,
    },
];

/// Form 10: `<STX>dd.mm.yy/w/hh:mm:ssxxxxuv<CR><LF><ETX>`.
pub fn read_sat(s: &[u8]) -> Result<Record, u32> {
    require(spelled(s, b"\x02##.##.##/#/##:##:##~~~~~~\r\n\x03"), 3)?;
    let (word, u, v) = (&s[20..24], s[24], s[25]);
    let spells_it = |zone: &&Zone| zone.word.as_bytes() == word;
    let zone = ZONES.iter().find(spells_it).ok_or(3u32)?;
    require(u == b'#' || u == b' ', 3)?;
    require(v == b'!' || v == b' ', 3)?;

    let date = date_at(s, 7, 4, 1);
    let weekday = number(&s[10..11]);
    let time = time_at(s, 12, 15, 18);
    check_ranges(date, time)?;
    require((1..=7).contains(&weekday), 4)?;

    require(weekday == calendar::weekday(date.0, date.1, date.2), 5)?;
    Ok(Record {
        // The table of 004 has `#` here, "clock has not synchronized": sync, and nothing of fix.
        sync: Some(u == b' '),
        utc: Some(zone.utc),
        summer: Some(zone.summer),
        change: Some(v == b'!'),
        ..record_of(date, time)
    })
}

/// The full date of a record that has one.
pub(crate) fn full_date(record: &Record) -> (u32, u32, u32) {
    match record.date {
        Some(Date::Full { year, month, day }) => (year, month, day),
        _ => unreachable!("test 8 has been passed"),
    }
}

/// The letter for yes, else a space.
fn letter(field: Option<bool>, yes: char) -> char {
    if field == Some(true) {
        yes
    } else {
        ' '
    }
}

/// The letter for no, else a space.
fn letter_for_no(field: Option<bool>, no: char) -> char {
    if field == Some(false) {
        no
    } else {
        ' '
    }
}

pub fn write_standard(record: &Record) -> Vec<u8> {
    let (yy, mm, dd) = full_date(record);
    let w = calendar::weekday(yy, mm, dd);
    let (hour, minute, second) = (record.hour, record.minute, record.second);
    let u = letter_for_no(record.sync, '#');
    let v = letter_for_no(record.fix, '*');
    let x = match (record.utc, record.summer) {
        (Some(true), _) => 'U',
        (_, Some(true)) => 'S',
        _ => ' ',
    };
    let y = match (record.change, record.leap) {
        (Some(true), _) => '!',
        (_, Some(true)) => 'A',
        _ => ' ',
    };
    format!(
        "\x02D:{dd:02}.{mm:02}.{yy:02};T:{w};U:{hour:02}.{minute:02}.{second:02};{u}{v}{x}{y}\x03"
    )
    .into_bytes()
}

pub fn write_capture(record: &Record) -> Vec<u8> {
    let (yy, mm, dd) = full_date(record);
    let (hour, minute, second) = (record.hour, record.minute, record.second);
    let x = record.channel.unwrap_or_default();
    let fraction = match record.fraction {
        Some(Fraction::TenMillionths(number)) => number,
        _ => unreachable!("test 8 has been passed"),
    };
    format!("CH{x} {dd:02}.{mm:02}.{yy:02} {hour:02}:{minute:02}:{second:02}.{fraction:07}\r\n")
        .into_bytes()
}

/// Latitude, longitude and altitude of a record that has them in degrees and metres.
fn degrees_position(record: &Record) -> (i32, i32, u32) {
    match record.position {
        Some(Position::Degrees {
            latitude,
            longitude,
            altitude,
        }) => (latitude, longitude, altitude),
        _ => unreachable!("test 8 has been passed"),
    }
}

/// `bbb.bbbb` or `lll.llll`: leading zeros as spaces, the digit before the point stays.
fn degrees(value: i32) -> String {
    let value = value.unsigned_abs();
    format!("{:3}.{:04}", value / 10_000, value % 10_000)
}

pub fn write_erlangen(record: &Record) -> Vec<u8> {
    let (yy, mm, dd) = full_date(record);
    let w = calendar::weekday(yy, mm, dd);
    let (hour, minute, second) = (record.hour, record.minute, record.second);
    let offset = record.offset.unwrap_or_default();
    let v = if offset < 0 { '-' } else { '+' };
    let (oh, om) = (offset.abs() / 60, offset.abs() % 60);
    let a = letter_for_no(record.sync, '#');
    let c = letter_for_no(record.fix, '*');
    let d = letter(record.summer, 'S');
    let f = letter(record.change, '!');
    let g = letter(record.leap, 'A');
    let i = if second == 60 { 'L' } else { ' ' };
    let (latitude, longitude, altitude) = degrees_position(record);
    let n = if latitude < 0 { 'S' } else { 'N' };
    let e = if longitude < 0 { 'W' } else { 'E' };
    let (latitude, longitude) = (degrees(latitude), degrees(longitude));
    format!(
        "\x02{dd:02}.{mm:02}.{yy:02}; {w}; {hour:02}:{minute:02}:{second:02}; \
         {v}{oh:02}:{om:02}; {a}{c}{d}{f}{g} {i};{latitude}{n} {longitude}{e} {altitude:4}m\x03"
    )
    .into_bytes()
}

pub fn write_spa(record: &Record) -> Vec<u8> {
    let (yy, mm, dd) = full_date(record);
    let (hour, minute, second) = (record.hour, record.minute, record.second);
    let fraction = match record.fraction {
        Some(Fraction::Thousandths(number)) => number,
        _ => unreachable!("test 8 has been passed"),
    };
    let mut text =
        format!(">900WD:{yy:02}-{mm:02}-{dd:02} {hour:02}.{minute:02};{second:02}.{fraction:03}:");
    let sum = spell_sum(spa_sum(text.as_bytes()));
    text.push_str(&format!("{sum}\r"));
    text.into_bytes()
}

pub fn write_racal(record: &Record) -> Vec<u8> {
    let (yy, mm, dd) = full_date(record);
    let (hour, minute, second) = (record.hour, record.minute, record.second);
    format!("XGU{yy:02}{mm:02}{dd:02}{hour:02}{minute:02}{second:02}\r").into_bytes()
}

/// "The writer of form 6 derives ddd from a full date."
pub fn write_sysplex(record: &Record) -> Vec<u8> {
    let ddd = match record.date {
        Some(Date::Full { year, month, day }) => calendar::day_of_year(year, month, day),
        Some(Date::DayOfYear(day)) => day,
        None => unreachable!("test 8 has been passed"),
    };
    let (hour, minute, second) = (record.hour, record.minute, record.second);
    let q = letter_for_no(record.sync, '?');
    format!("\x01{ddd:03}:{hour:02}:{minute:02}:{second:02}{q}\r\n").into_bytes()
}

pub fn write_computime(record: &Record) -> Vec<u8> {
    let (yy, mm, dd) = full_date(record);
    let ww = calendar::weekday(yy, mm, dd);
    let (hour, minute, second) = (record.hour, record.minute, record.second);
    format!("T:{yy:02}:{mm:02}:{dd:02}:{ww:02}:{hour:02}:{minute:02}:{second:02}\r\n").into_bytes()
}

pub fn write_sat(record: &Record) -> Vec<u8> {
    let (yy, mm, dd) = full_date(record);
    let w = calendar::weekday(yy, mm, dd);
    let (hour, minute, second) = (record.hour, record.minute, record.second);
    let fits = |zone: &&Zone| (Some(zone.utc), Some(zone.summer)) == (record.utc, record.summer);
    let zone = ZONES.iter().find(fits);
    let xxxx = zone.expect("tests 7 and 8 have been passed").word;
    let u = letter_for_no(record.sync, '#');
    let v = letter(record.change, '!');
    format!("\x02{dd:02}.{mm:02}.{yy:02}/{w}/{hour:02}:{minute:02}:{second:02}{xxxx}{u}{v}\r\n\x03")
        .into_bytes()
}

#[cfg(test)]
mod tests {
    use super::*;

    #[test]
    fn padding_is_exact() {
        for good in ["  0", "  7", " 47", "180", " 10"] {
            assert!(padded(good.as_bytes()), "{good}");
        }
        for bad in [
            "   ", "007", "047", " 07", "4 7", "47 ", " 4x", "+47", "0 0",
        ] {
            assert!(!padded(bad.as_bytes()), "{bad}");
        }
        assert!(padded(b"   0") && padded(b"9999") && padded(b" 431"));
        assert!(!padded(b"0431") && !padded(b"  00") && !padded(b"    "));
    }

    #[test]
    fn the_sum_covers_the_last_colon() {
        assert_eq!(spa_sum(b">900WD:24-01-01 12.00;00.000:3A\r"), 0x3a);
    }
}

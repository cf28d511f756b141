//! Section "The block": form 9, fourteen lines of key, `=`, value, each closed by LF. Document 02,
//! W-204, adds a kind of fraction and a kind of position.

use crate::minutes::{size_of, spell_size, LATITUDE_DIGITS, LONGITUDE_DIGITS};
use crate::record::{
    channel_in_range, offset_in_range, time_in_range, Date, Fraction, Position, Record,
};
use crate::serial::{number, require, spelled};

pub const KEYS: [&str; 14] = [
    "date", "time", "fraction", "channel", "sync", "fix", "utc", "summer", "change", "leap",
    "offset", "position", "dsp", "lsp",
];

const ABSENT: &[u8] = b"-";

/// The values of the fourteen lines, if the keys stand in their order and each line is closed.
fn values(input: &[u8]) -> Option<Vec<&[u8]>> {
    let body = input.strip_suffix(b"\n")?;
    let lines: Vec<&[u8]> = body.split(|byte| *byte == b'\n').collect();
    if lines.len() != KEYS.len() {
        return None;
    }
    let mut values = Vec::new();
    for (line, key) in lines.iter().zip(KEYS) {
        values.push(line.strip_prefix(key.as_bytes())?.strip_prefix(b"=")?);
    }
    Some(values)
}

fn is_sign(byte: u8) -> bool {
    byte == b'+' || byte == b'-'
}

/// `+047.3500 +008.0625 0431`.
fn is_in_degrees(value: &[u8]) -> bool {
    spelled(value, b"~###.#### ~###.#### ####") && is_sign(value[0]) && is_sign(value[10])
}

/// `+4721.00 +00803.75` (document 02, W-204).
fn is_in_minutes(value: &[u8]) -> bool {
    spelled(value, b"~####.## ~#####.##") && is_sign(value[0]) && is_sign(value[9])
}

fn value_is_spelled(key: &str, value: &[u8]) -> bool {
    if value == ABSENT {
        return key != "time";
    }
    match key {
        "date" => spelled(value, b"##-##-##") || spelled(value, b"day-###"),
        "time" => spelled(value, b"##:##:##"),
        "fraction" => [&b"##"[..], b"###", b"#######"]
            .iter()
            .any(|digits| spelled(value, digits)),
        "channel" => spelled(value, b"#"),
        "offset" => spelled(value, b"~##:##") && is_sign(value[0]),
        // Half of the one and half of the other is neither.
        "position" => is_in_degrees(value) || is_in_minutes(value),
        _ => value == b"yes" || value == b"no",
    }
}

/// A signed number as it stands in the block: the sign and what it is put before.
struct Signed {
    minus: bool,
    size: i32,
}

impl Signed {
    fn new(sign: u8, size: i32) -> Self {
        let minus = sign == b'-';
        Signed { minus, size }
    }

    fn value(&self) -> i32 {
        if self.minus {
            -self.size
        } else {
            self.size
        }
    }

    fn minus_on_zero(&self) -> bool {
        self.minus && self.size == 0
    }
}

fn date_of(value: &[u8]) -> Option<Date> {
    if value == ABSENT {
        None
    } else if value.starts_with(b"day-") {
        Some(Date::DayOfYear(number(&value[4..7])))
    } else {
        Some(Date::Full {
            year: number(&value[0..2]),
            month: number(&value[3..5]),
            day: number(&value[6..8]),
        })
    }
}

fn fraction_of(value: &[u8]) -> Option<Fraction> {
    match value.len() {
        2 => Some(Fraction::Hundredths(number(value))),
        3 => Some(Fraction::Thousandths(number(value))),
        7 => Some(Fraction::TenMillionths(number(value))),
        _ => None,
    }
}

fn channel_of(value: &[u8]) -> Option<u32> {
    (value != ABSENT).then(|| number(value))
}

fn flag_of(value: &[u8]) -> Option<bool> {
    (value != ABSENT).then(|| value == b"yes")
}

/// The minutes spelled `+01:00`.
fn offset_of(value: &[u8]) -> Result<Signed, u32> {
    let hours = number(&value[1..3]) as i32;
    let minutes = number(&value[4..6]) as i32;
    require(minutes <= 59, 4)?;
    let offset = Signed::new(value[0], hours * 60 + minutes);
    require(offset_in_range(offset.size), 4)?;
    Ok(offset)
}

/// The ten-thousandths of a degree spelled `+047.3500`.
fn degrees_of(value: &[u8]) -> Signed {
    let size = number(&value[1..4]) * 10_000 + number(&value[5..9]);
    Signed::new(value[0], size as i32)
}

/// The hundredths of a minute spelled `+4721.00` or `+00803.75`.
fn minutes_of(value: &[u8]) -> Result<Signed, u32> {
    Ok(Signed::new(value[0], size_of(&value[1..])?))
}

/// A position of either kind, and whether a minus stands on a zero in it.
fn position_of(value: &[u8]) -> Result<(Position, bool), u32> {
    let (latitude, longitude, position) = if is_in_minutes(value) {
        let latitude = minutes_of(&value[0..8])?;
        let longitude = minutes_of(&value[9..18])?;
        let position = Position::Minutes {
            latitude: latitude.value(),
            longitude: longitude.value(),
        };
        (latitude, longitude, position)
    } else {
        let latitude = degrees_of(&value[0..9]);
        let longitude = degrees_of(&value[10..19]);
        let position = Position::Degrees {
            latitude: latitude.value(),
            longitude: longitude.value(),
            altitude: number(&value[20..24]),
        };
        (latitude, longitude, position)
    };
    require(position.in_range(), 4)?;
    let minus_on_zero = latitude.minus_on_zero() || longitude.minus_on_zero();
    Ok((position, minus_on_zero))
}

/// What the well spelled lines say without offset and position, whatever their ranges.
fn record_of(value: &[&[u8]]) -> Record {
    Record {
        date: date_of(value[0]),
        hour: number(&value[1][0..2]),
        minute: number(&value[1][3..5]),
        second: number(&value[1][6..8]),
        fraction: fraction_of(value[2]),
        channel: channel_of(value[3]),
        sync: flag_of(value[4]),
        fix: flag_of(value[5]),
        utc: flag_of(value[6]),
        summer: flag_of(value[7]),
        change: flag_of(value[8]),
        leap: flag_of(value[9]),
        dsp: flag_of(value[12]),
        lsp: flag_of(value[13]),
        ..Record::default()
    }
}

pub fn read_block(input: &[u8]) -> Result<Record, u32> {
    let value = values(input).ok_or(3u32)?;
    for (key, value) in KEYS.iter().zip(&value) {
        require(value_is_spelled(key, value), 3)?;
    }

    let mut record = record_of(&value);
    let mut minus_on_zero = false;
    require(record.date.is_none_or(|date| date.in_range()), 4)?;
    require(time_in_range(record.hour, record.minute, record.second), 4)?;
    require(record.channel.is_none_or(channel_in_range), 4)?;
    if value[10] != ABSENT {
        let offset = offset_of(value[10])?;
        record.offset = Some(offset.value());
        minus_on_zero |= offset.minus_on_zero();
    }
    if value[11] != ABSENT {
        let (position, on_zero) = position_of(value[11])?;
        record.position = Some(position);
        minus_on_zero |= on_zero;
    }

    require(!minus_on_zero, 5)?;
    require(!record.utc_and_summer(), 5)?;
    Ok(record)
}

fn sign(value: i32) -> char {
    if value < 0 {
        '-'
    } else {
        '+'
    }
}

fn spell_date(date: Date) -> String {
    match date {
        Date::Full { year, month, day } => format!("{year:02}-{month:02}-{day:02}"),
        Date::DayOfYear(day) => format!("day-{day:03}"),
    }
}

fn spell_fraction(fraction: Fraction) -> String {
    match fraction {
        Fraction::Hundredths(number) => format!("{number:02}"),
        Fraction::Thousandths(number) => format!("{number:03}"),
        Fraction::TenMillionths(number) => format!("{number:07}"),
    }
}

fn spell_flag(flag: bool) -> String {
    if flag { "yes" } else { "no" }.to_string()
}

fn spell_offset(offset: i32) -> String {
    let size = offset.abs();
    format!("{}{:02}:{:02}", sign(offset), size / 60, size % 60)
}

fn spell_degrees(value: i32) -> String {
    let size = value.abs();
    format!("{}{:03}.{:04}", sign(value), size / 10_000, size % 10_000)
}

fn spell_minutes(value: i32, digits: usize) -> String {
    format!("{}{}", sign(value), spell_size(value, digits))
}

fn spell_position(position: Position) -> String {
    match position {
        Position::Degrees {
            latitude,
            longitude,
            altitude,
        } => {
            let latitude = spell_degrees(latitude);
            let longitude = spell_degrees(longitude);
            format!("{latitude} {longitude} {altitude:04}")
        }
        Position::Minutes {
            latitude,
            longitude,
        } => {
            let latitude = spell_minutes(latitude, LATITUDE_DIGITS);
            let longitude = spell_minutes(longitude, LONGITUDE_DIGITS);
            format!("{latitude} {longitude}")
        }
    }
}

pub fn write_block(record: &Record) -> Vec<u8> {
    let time = format!(
        "{:02}:{:02}:{:02}",
        record.hour, record.minute, record.second
    );
    let values = [
        record.date.map(spell_date),
        Some(time),
        record.fraction.map(spell_fraction),
        record.channel.map(|channel| channel.to_string()),
        record.sync.map(spell_flag),
        record.fix.map(spell_flag),
        record.utc.map(spell_flag),
        record.summer.map(spell_flag),
        record.change.map(spell_flag),
        record.leap.map(spell_flag),
        record.offset.map(spell_offset),
        record.position.map(spell_position),
        record.dsp.map(spell_flag),
        record.lsp.map(spell_flag),
    ];
    let mut text = String::new();
    for (key, value) in KEYS.iter().zip(values) {
        let value = value.unwrap_or("-".to_string());
        text.push_str(&format!("{key}={value}\n"));
    }
    text.into_bytes()
}

#[cfg(test)]
mod tests {
    use super::*;

    /// A record of which every line is at its longest.
    fn longest_record() -> Record {
        Record {
            date: Some(Date::Full {
                year: 24,
                month: 2,
                day: 29,
            }),
            fraction: Some(Fraction::TenMillionths(0)),
            channel: Some(1),
            sync: Some(true),
            fix: Some(true),
            utc: Some(true),
            summer: Some(false),
            change: Some(true),
            leap: Some(true),
            offset: Some(-1),
            position: Some(Position::Degrees {
                latitude: -1,
                longitude: -1,
                altitude: 0,
            }),
            dsp: Some(true),
            lsp: Some(true),
            ..Record::default()
        }
    }

    #[test]
    fn the_shortest_and_the_longest_block() {
        assert_eq!(write_block(&Record::default()).len(), 118);
        let longest = longest_record();
        assert_eq!(write_block(&longest).len(), 174);
        assert_eq!(read_block(&write_block(&longest)), Ok(longest));
        // The kinds of W-204 are shorter than the longest of document 01: "118 and 174 hold".
        let other_kinds = Record {
            fraction: Some(Fraction::Hundredths(0)),
            position: Some(Position::Minutes {
                latitude: -1,
                longitude: -1,
            }),
            ..longest
        };
        assert_eq!(write_block(&other_kinds).len(), 174 - 5 - 6);
        assert_eq!(read_block(&write_block(&other_kinds)), Ok(other_kinds));
    }

    #[test]
    fn the_values_of_the_section() {
        let text = "date=day-060\ntime=23:59:60\nfraction=-\nchannel=-\nsync=yes\nfix=no\nutc=-\n\
                    summer=-\nchange=-\nleap=-\noffset=+01:00\nposition=+047.3500 +008.0625 0431\n\
                    dsp=-\nlsp=-\n";
        let record = Record {
            date: Some(Date::DayOfYear(60)),
            hour: 23,
            minute: 59,
            second: 60,
            sync: Some(true),
            fix: Some(false),
            offset: Some(60),
            position: Some(Position::Degrees {
                latitude: 473_500,
                longitude: 80_625,
                altitude: 431,
            }),
            ..Record::default()
        };
        assert_eq!(read_block(text.as_bytes()), Ok(record));
        assert_eq!(write_block(&record), text.as_bytes());
    }

    /// A block in which fraction and position stand alone beside the time.
    fn block(fraction: &str, position: &str) -> Vec<u8> {
        let flags = "sync=-\nfix=-\nutc=-\nsummer=-\nchange=-\nleap=-\n";
        let head = format!("date=-\ntime=00:00:00\nfraction={fraction}\nchannel=-\n");
        format!("{head}{flags}offset=-\nposition={position}\ndsp=-\nlsp=-\n").into_bytes()
    }

    #[test]
    fn the_kinds_of_w_204() {
        for (position, latitude, longitude) in [
            ("+4721.00 +00803.75", 284_100, 48_375),
            ("-4721.00 -00803.75", -284_100, -48_375),
            ("+0000.00 +00000.00", 0, 0),
            ("-0000.01 +00000.01", -1, 1),
            ("+8959.99 -17959.99", 539_999, -1_079_999),
            ("-9000.00 +18000.00", -540_000, 1_080_000),
        ] {
            let record = Record {
                fraction: Some(Fraction::Hundredths(7)),
                position: Some(Position::Minutes {
                    latitude,
                    longitude,
                }),
                ..Record::default()
            };
            assert_eq!(read_block(&block("07", position)), Ok(record));
            assert_eq!(write_block(&record), block("07", position));
        }
    }

    #[test]
    fn minutes_are_refused_with_3_4_and_5() {
        let number = |position: &str| read_block(&block("-", position)).err().unwrap_or(0);
        for mixed in [
            "+4721.00 +008.0625 0431",
            "+4721.00 +008.0625",
            "+4721.00 +00803.75 0431",
            "+047.3500 +00803.75",
            "+047.3500 +00803.75 0431",
            "+04721.00 +00803.75",
            "+4721.00 +0803.75",
            "+4721.00  00803.75",
            " 4721.00 +00803.75",
            "+4721.00 + 0803.75",
            "+4721.00 +00803,75",
        ] {
            assert_eq!(number(mixed), 3, "{mixed}");
        }
        for outside in [
            "+9000.01 +00000.00",
            "-9000.01 +00000.00",
            "+0000.00 +18000.01",
            "+8960.00 +00000.00",
            "+0000.00 -17960.00",
            "-0060.00 +00000.00",
            "-0000.00 +18000.01",
        ] {
            assert_eq!(number(outside), 4, "{outside}");
        }
        for minus_on_zero in ["-0000.00 +00803.75", "+4721.00 -00000.00"] {
            assert_eq!(number(minus_on_zero), 5, "{minus_on_zero}");
        }
    }

    #[test]
    fn a_fraction_has_two_three_or_seven_digits() {
        let number = |fraction: &str| read_block(&block(fraction, "-")).err().unwrap_or(0);
        for good in ["-", "00", "99", "000", "999", "0000000", "9999999"] {
            assert_eq!(number(good), 0, "{good}");
        }
        for bad in ["", "0", "0000", "000000", "00000000", " 0", "0x", "+1"] {
            assert_eq!(number(bad), 3, "{bad}");
        }
    }
}

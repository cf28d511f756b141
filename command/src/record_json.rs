//! A record of a line of JSON, as `export` prints it. A key that is null or not there is an absent field.

use lindenscoop::{Date, Fraction, Position, Record};

use crate::cells::COLUMNS;
use crate::json::{self, Value};

type Members = Vec<(String, Value)>;

/// The record, or what is wrong with the line.
pub fn record(line: &str) -> Result<Record, String> {
    let members = json::object(line)?;
    let is_known = |key: &str| {
        key == "place" || key == "file" || COLUMNS.split(',').any(|column| column == key)
    };
    if let Some((key, _)) = members.iter().find(|(key, _)| !is_known(key)) {
        return Err(format!(
            "there is no field \"{key}\"; the fields are {COLUMNS}"
        ));
    }
    let [hour, minute, second] = time(&members)?;
    Ok(Record {
        hour,
        minute,
        second,
        date: date(&members)?,
        fraction: text(&members, "fraction")?.map(fraction).transpose()?,
        channel: whole(&members, "channel")?,
        sync: flag(&members, "sync")?,
        fix: flag(&members, "fix")?,
        utc: flag(&members, "utc")?,
        summer: flag(&members, "summer")?,
        change: flag(&members, "change")?,
        leap: flag(&members, "leap")?,
        offset: text(&members, "offset")?.map(offset).transpose()?,
        position: position(&members)?,
        dsp: flag(&members, "dsp")?,
        lsp: flag(&members, "lsp")?,
    })
}

/// The value of a key, unless it is absent.
fn value<'a>(members: &'a Members, key: &str) -> Option<&'a Value> {
    let found = members.iter().find(|(known, _)| known == key);
    found
        .map(|(_, value)| value)
        .filter(|value| **value != Value::Null)
}

fn text<'a>(members: &'a Members, key: &str) -> Result<Option<&'a str>, String> {
    match value(members, key) {
        None => Ok(None),
        Some(Value::Text(text)) => Ok(Some(text)),
        Some(_) => Err(format!("\"{key}\" must be a string or null")),
    }
}

fn flag(members: &Members, key: &str) -> Result<Option<bool>, String> {
    match value(members, key) {
        None => Ok(None),
        Some(Value::Bool(yes)) => Ok(Some(*yes)),
        Some(_) => Err(format!("\"{key}\" must be true, false or null")),
    }
}

fn number<'a>(members: &'a Members, key: &str) -> Result<Option<&'a str>, String> {
    match value(members, key) {
        None => Ok(None),
        Some(Value::Number(spelled)) => Ok(Some(spelled)),
        Some(_) => Err(format!("\"{key}\" must be a number or null")),
    }
}

fn whole(members: &Members, key: &str) -> Result<Option<u32>, String> {
    let spelled = number(members, key)?;
    spelled
        .map(|spelled| {
            digits(spelled)
                .ok_or_else(|| format!("\"{key}\" must be a whole number from 0 on, not {spelled}"))
        })
        .transpose()
}

/// The number of some digits, and of digits alone.
fn digits(spelled: &str) -> Option<u32> {
    let only = !spelled.is_empty() && spelled.bytes().all(|byte| byte.is_ascii_digit());
    only.then(|| spelled.parse().ok()).flatten()
}

/// Numbers of so many digits each with a byte between them.
fn parts<const N: usize>(text: &str, lengths: [usize; N], between: char) -> Option<[u32; N]> {
    let mut out = [0; N];
    let mut words = text.split(between);
    for (number, length) in out.iter_mut().zip(lengths) {
        *number = words
            .next()
            .filter(|word| word.len() == length)
            .and_then(digits)?;
    }
    words.next().is_none().then_some(out)
}

fn time(members: &Members) -> Result<[u32; 3], String> {
    let text = text(members, "time")?
        .ok_or("\"time\" is missing; every record has one, such as \"23:59:59\"")?;
    parts(text, [2, 2, 2], ':')
        .ok_or_else(|| format!("\"time\" must be as \"23:59:59\", not \"{text}\""))
}

fn date(members: &Members) -> Result<Option<Date>, String> {
    let full = text(members, "date")?;
    let day_of_year = whole(members, "day_of_year")?;
    match (full, day_of_year) {
        (None, None) => Ok(None),
        (None, Some(day)) => Ok(Some(Date::DayOfYear(day))),
        (Some(_), Some(_)) => {
            Err("\"date\" and \"day_of_year\" are both there; one of them must be null".to_string())
        }
        (Some(text), None) => parts(text, [4, 2, 2], '-')
            .and_then(|[year, month, day]| Date::of_full_year(year, month, day))
            .map(Some)
            .ok_or_else(|| {
                format!("\"date\" must be as \"2024-02-29\", of 1980 to 2079, not \"{text}\"")
            }),
    }
}

fn fraction(text: &str) -> Result<Fraction, String> {
    let spelled = text.strip_prefix("0.").unwrap_or("");
    match (spelled.len(), digits(spelled)) {
        (2, Some(value)) => Ok(Fraction::Hundredths(value)),
        (3, Some(value)) => Ok(Fraction::Thousandths(value)),
        (7, Some(value)) => Ok(Fraction::TenMillionths(value)),
        _ => Err(format!("\"fraction\" must be as \"0.12\", \"0.123\" or \"0.1234567\", with 2, 3 or 7 digits as the form has it, not \"{text}\"")),
    }
}

fn offset(text: &str) -> Result<i32, String> {
    let wrong = || format!("\"offset\" must be as \"+01:00\" or \"-03:30\", not \"{text}\"");
    let sign = match text.get(..1) {
        Some("+") => 1,
        Some("-") => -1,
        _ => return Err(wrong()),
    };
    match parts(&text[1..], [2, 2], ':') {
        Some([hours, minutes @ 0..=59]) => Ok(sign * (hours * 60 + minutes) as i32),
        _ => Err(wrong()),
    }
}

/// In degrees by three keys, or in minutes by two: one kind is never made of the other.
fn position(members: &Members) -> Result<Option<Position>, String> {
    match (in_degrees(members)?, in_minutes(members)?) {
        (Some(_), Some(_)) => Err("\"latitude\" and \"latitude_minutes\" are both there; give the kind that the form carries, and null for the keys of the other".to_string()),
        (degrees, minutes) => Ok(degrees.or(minutes)),
    }
}

fn in_degrees(members: &Members) -> Result<Option<Position>, String> {
    let latitude = number(members, "latitude")?;
    let longitude = number(members, "longitude")?;
    let altitude = whole(members, "altitude")?;
    match (latitude, longitude, altitude) {
        (None, None, None) => Ok(None),
        (Some(latitude), Some(longitude), Some(altitude)) => Ok(Some(Position::Degrees {
            latitude: degrees(latitude)?,
            longitude: degrees(longitude)?,
            altitude,
        })),
        _ => Err(
            "\"latitude\", \"longitude\" and \"altitude\" must be there together, or all be null"
                .to_string(),
        ),
    }
}

fn in_minutes(members: &Members) -> Result<Option<Position>, String> {
    let latitude = number(members, "latitude_minutes")?;
    let longitude = number(members, "longitude_minutes")?;
    match (latitude, longitude) {
        (None, None) => Ok(None),
        (Some(latitude), Some(longitude)) => Ok(Some(Position::Minutes {
            latitude: minutes(latitude)?,
            longitude: minutes(longitude)?,
        })),
        _ => Err(
            "\"latitude_minutes\" and \"longitude_minutes\" must be there together, or both be null"
                .to_string(),
        ),
    }
}

fn degrees(spelled: &str) -> Result<i32, String> {
    parts_of(spelled, 4).ok_or_else(|| {
        format!("{spelled} is no degrees; give up to four digits behind the point, such as -8.0625")
    })
}

fn minutes(spelled: &str) -> Result<i32, String> {
    parts_of(spelled, 2).ok_or_else(|| {
        format!("{spelled} is no minutes of arc; give up to two digits behind the point, such as -483.75")
    })
}

/// A number with up to so many digits behind the point, in parts of the last of them. What is out of range the library refuses, so that only
/// what would not fit is kept from it.
fn parts_of(spelled: &str, most: usize) -> Option<i32> {
    let (sign, size) = match spelled.strip_prefix('-') {
        Some(size) => (-1, size),
        None => (1, spelled),
    };
    let (before, behind) = size.split_once('.').unwrap_or((size, "0"));
    let whole = digits(before).filter(|whole| *whole <= 99_999)?;
    let part = digits(behind).filter(|_| behind.len() <= most)?;
    let scale = |places: usize| 10_u32.pow(places as u32);
    Some(sign * (whole * scale(most) + part * scale(most - behind.len())) as i32)
}

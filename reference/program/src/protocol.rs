//! The line protocol of the program `reference`; `src/bin/reference.rs` describes it.

use crate::block::write_block;
use crate::listener::{Heard, Listener};
use crate::record::{Date, Fraction, Position, Record};
use crate::{read, search, write};

mod runs;

pub use runs::{parse_records, parse_table, spell_add, spell_records, spell_table};

/// What a buffer is filled with before a write.
pub const FILLING: u8 = 0x55;

/// Bytes in hex, two small digits each; no bytes at all are `-`.
pub fn hex(bytes: &[u8]) -> String {
    if bytes.is_empty() {
        return "-".to_string();
    }
    bytes.iter().map(|byte| format!("{byte:02x}")).collect()
}

pub fn unhex(text: &str) -> Option<Vec<u8>> {
    if text == "-" {
        return Some(Vec::new());
    }
    if text.len() % 2 != 0 || !text.bytes().all(|byte| byte.is_ascii_hexdigit()) {
        return None;
    }
    (0..text.len() / 2)
        .map(|pair| u8::from_str_radix(&text[2 * pair..2 * pair + 2], 16).ok())
        .collect()
}

fn block_hex(record: &Record) -> String {
    hex(&write_block(record))
}

/// A field that is `-` or something that `parse` understands.
fn optional<T>(text: &str, parse: impl Fn(&str) -> Option<T>) -> Option<Option<T>> {
    if text == "-" {
        Some(None)
    } else {
        parse(text).map(Some)
    }
}

fn parse_number<T: std::str::FromStr>(text: &str) -> Option<T> {
    text.parse().ok()
}

fn parse_date(text: &str) -> Option<Date> {
    let parts: Vec<&str> = text.split(':').collect();
    match parts[..] {
        ["full", year, month, day] => Some(Date::Full {
            year: parse_number(year)?,
            month: parse_number(month)?,
            day: parse_number(day)?,
        }),
        ["day", number] => Some(Date::DayOfYear(parse_number(number)?)),
        _ => None,
    }
}

fn parse_fraction(text: &str) -> Option<Fraction> {
    match text.split_once(':')? {
        ("2", number) => Some(Fraction::Hundredths(parse_number(number)?)),
        ("3", number) => Some(Fraction::Thousandths(parse_number(number)?)),
        ("7", number) => Some(Fraction::TenMillionths(parse_number(number)?)),
        _ => None,
    }
}

fn parse_flag(text: &str) -> Option<bool> {
    match text {
        "0" => Some(false),
        "1" => Some(true),
        _ => None,
    }
}

fn parse_position(text: &str) -> Option<Position> {
    let parts: Vec<&str> = text.split(':').collect();
    match parts[..] {
        ["min", latitude, longitude] => Some(Position::Minutes {
            latitude: parse_number(latitude)?,
            longitude: parse_number(longitude)?,
        }),
        [latitude, longitude, altitude] => Some(Position::Degrees {
            latitude: parse_number(latitude)?,
            longitude: parse_number(longitude)?,
            altitude: parse_number(altitude)?,
        }),
        _ => None,
    }
}

/// A record from the comma list of a request.
pub fn parse_fields(text: &str) -> Option<Record> {
    let parts: Vec<&str> = text.split(',').collect();
    if parts.len() != 14 {
        return None;
    }
    let time: Vec<&str> = parts[1].split(':').collect();
    let [hour, minute, second] = time[..] else {
        return None;
    };
    Some(Record {
        date: optional(parts[0], parse_date)?,
        hour: parse_number(hour)?,
        minute: parse_number(minute)?,
        second: parse_number(second)?,
        fraction: optional(parts[2], parse_fraction)?,
        channel: optional(parts[3], parse_number)?,
        sync: optional(parts[4], parse_flag)?,
        fix: optional(parts[5], parse_flag)?,
        utc: optional(parts[6], parse_flag)?,
        summer: optional(parts[7], parse_flag)?,
        change: optional(parts[8], parse_flag)?,
        leap: optional(parts[9], parse_flag)?,
        offset: optional(parts[10], parse_number)?,
        position: optional(parts[11], parse_position)?,
        dsp: optional(parts[12], parse_flag)?,
        lsp: optional(parts[13], parse_flag)?,
    })
}

fn or_absent<T>(field: Option<T>, spell: impl Fn(T) -> String) -> String {
    field.map_or("-".to_string(), spell)
}

fn spell_date(date: Date) -> String {
    match date {
        Date::Full { year, month, day } => format!("full:{year}:{month}:{day}"),
        Date::DayOfYear(day) => format!("day:{day}"),
    }
}

fn spell_fraction(fraction: Fraction) -> String {
    match fraction {
        Fraction::Hundredths(number) => format!("2:{number}"),
        Fraction::Thousandths(number) => format!("3:{number}"),
        Fraction::TenMillionths(number) => format!("7:{number}"),
    }
}

fn spell_position(position: Position) -> String {
    match position {
        Position::Degrees {
            latitude,
            longitude,
            altitude,
        } => format!("{latitude}:{longitude}:{altitude}"),
        Position::Minutes {
            latitude,
            longitude,
        } => format!("min:{latitude}:{longitude}"),
    }
}

/// The comma list of a record, good or bad.
pub fn spell_fields(record: &Record) -> String {
    let flag = |field: Option<bool>| or_absent(field, |yes| u32::from(yes).to_string());
    [
        or_absent(record.date, spell_date),
        format!("{}:{}:{}", record.hour, record.minute, record.second),
        or_absent(record.fraction, spell_fraction),
        or_absent(record.channel, |channel| channel.to_string()),
        flag(record.sync),
        flag(record.fix),
        flag(record.utc),
        flag(record.summer),
        flag(record.change),
        flag(record.leap),
        or_absent(record.offset, |offset| offset.to_string()),
        or_absent(record.position, spell_position),
        flag(record.dsp),
        flag(record.lsp),
    ]
    .join(",")
}

fn answer_read(form: u32, input: &[u8]) -> String {
    match read(form, input) {
        Ok(record) => format!("0 {}", block_hex(&record)),
        Err(refusal) => refusal.to_string(),
    }
}

fn answer_write(form: u32, record: &Record, length: usize) -> String {
    let mut buffer = vec![FILLING; length];
    let (refusal, written) = match write(form, record, &mut buffer) {
        Ok(written) => (0, written),
        Err(refusal) => (refusal, 0),
    };
    format!("{refusal} {written} {}", hex(&buffer))
}

fn answer_search(form: u32, start: usize, input: &[u8]) -> String {
    match search(form, input, start) {
        Ok((place, record)) => format!("0 {place} {}", block_hex(&record)),
        Err(refusal) => format!("{refusal} 0"),
    }
}

fn answer_listen(form: u32, stream: &[u8]) -> String {
    let (refusal, mut listener) = Listener::start(form);
    let mut answers = Vec::new();
    if refusal != 0 {
        answers.push(refusal.to_string());
    }
    for (before, byte) in stream.iter().enumerate() {
        let (next, heard) = listener.feed(*byte);
        listener = next;
        match heard {
            Heard::Nothing => {}
            Heard::Record(record) => answers.push(format!("{}:{}", before + 1, block_hex(&record))),
            Heard::Refused(refusal) => answers.push(format!("{}!{refusal}", before + 1)),
        }
    }
    if answers.is_empty() {
        "-".to_string()
    } else {
        answers.join(" ")
    }
}

fn answer_feed(state: Listener, byte: u8) -> String {
    let (next, heard) = state.feed(byte);
    let heard = match heard {
        Heard::Nothing => "-".to_string(),
        Heard::Record(record) => block_hex(&record),
        Heard::Refused(refusal) => format!("!{refusal}"),
    };
    format!(
        "{heard} {} {} {}",
        next.form,
        next.distance,
        hex(&next.kept)
    )
}

fn understood(line: &str) -> Option<String> {
    let words: Vec<&str> = line.split_whitespace().collect();
    match words[..] {
        ["read", form, input] => Some(answer_read(parse_number(form)?, &unhex(input)?)),
        ["writeraw", form, fields, length] => Some(answer_write(
            parse_number(form)?,
            &parse_fields(fields)?,
            parse_number(length)?,
        )),
        ["search", form, start, input] => Some(answer_search(
            parse_number(form)?,
            parse_number(start)?,
            &unhex(input)?,
        )),
        ["listen", form, stream] => Some(answer_listen(parse_number(form)?, &unhex(stream)?)),
        ["feed", form, distance, kept, byte] => {
            let state = Listener {
                form: parse_number(form)?,
                kept: unhex(kept)?,
                distance: parse_number(distance)?,
            };
            match unhex(byte)?[..] {
                [byte] => Some(answer_feed(state, byte)),
                _ => None,
            }
        }
        ["add", length, used, rack, table, fields] => Some(runs::answer_add(
            parse_table(parse_number(length)?, table)?,
            parse_number(used)?,
            parse_number(rack)?,
            &parse_fields(fields)?,
        )),
        ["addall", records] => Some(runs::answer_add_all(&parse_records(records)?)),
        _ => None,
    }
}

/// The answer to one request line; a line that is no request is answered `?`.
pub fn answer(line: &str) -> String {
    understood(line).unwrap_or("?".to_string())
}

/// How often each number is answered to reads, writes and single calls on a table.
#[cfg(test)]
pub(crate) fn numbers_answered(
    requests: impl Iterator<Item = String>,
) -> std::collections::BTreeMap<u32, usize> {
    let mut met = std::collections::BTreeMap::new();
    for request in requests {
        let answer = answer(&request);
        let number = answer.split(' ').next().unwrap_or_default();
        *met.entry(number.parse().unwrap()).or_default() += 1;
    }
    met
}

#[cfg(test)]
mod tests {
    use super::*;

    #[test]
    fn hex_goes_both_ways() {
        for bytes in [&b""[..], b"\x00", b"\x02D:\xff"] {
            assert_eq!(unhex(&hex(bytes)).as_deref(), Some(bytes));
        }
        assert_eq!(unhex("0"), None);
        assert_eq!(unhex("0x"), None);
    }

    #[test]
    fn the_requests_are_answered() {
        let racal = hex(b"XGU000229000000\r");
        assert!(answer(&format!("read 5 {racal}")).starts_with("0 646174653d30302d30322d32390a"));
        assert_eq!(answer("read 15 -"), "1");
        assert_eq!(answer("read 12 -"), "2");
        assert_eq!(answer("read 11 -"), "2");
        assert_eq!(answer("read 10 -"), "2");
        assert_eq!(answer("read 5 -"), "2");
        let fields = "full:0:2:29,0:0:0,-,-,-,-,-,-,-,-,-,-,-,-";
        assert_eq!(
            answer(&format!("writeraw 5 {fields} 17")),
            format!("0 16 {racal}55")
        );
        assert_eq!(answer(&format!("writeraw 5 {fields} 2")), "10 0 5555");
        assert_eq!(answer(&format!("writeraw 6 {fields} 0")), "8 0 -");
        assert_eq!(answer(&format!("writeraw 11 {fields} 0")), "8 0 -");
        assert_eq!(answer(&format!("writeraw 12 {fields} 0")), "8 0 -");
        assert_eq!(answer(&format!("writeraw 15 {fields} 0")), "1 0 -");
        assert_eq!(answer("search 11 0 02"), "1 0");
        assert!(answer(&format!("search 5 1 58{racal}")).starts_with("0 1 64617465"));
        assert_eq!(answer(&format!("search 5 1 {racal}")), "12 0");
        assert!(answer(&format!("listen 5 58{racal}")).starts_with("17:64617465"));
        assert_eq!(answer("listen 5 -"), "-");
        assert_eq!(answer("listen 8 0000"), "1 1!11 2!11");
        assert_eq!(answer("listen 10 0000"), "-");
        assert_eq!(answer("listen 11 0000"), "1 1!11 2!11");
        assert_eq!(answer("listen 12 0000"), "-");
        assert_eq!(answer("feed 5 16 - 58"), "- 5 16 58");
        assert_eq!(answer("feed 5 17 - 58"), "!11 5 17 -");
        assert_eq!(answer("feed 10 29 - 02"), "- 10 29 02");
        assert_eq!(answer("feed 10 30 - 02"), "!11 10 30 -");
        assert_eq!(answer("feed 11 99 02 00"), "!11 11 99 02");
        assert_eq!(answer("feed 12 65 - 24"), "- 12 65 24");
        assert_eq!(answer("feed 12 66 - 24"), "!11 12 66 -");
        assert_eq!(answer("reed 5 -"), "?");
    }

    #[test]
    fn fields_go_both_ways() {
        for text in [
            "full:100:13:32,24:60:61,3:1000,2,0,1,-,0,1,-,-841,-900001:1800001:10000,1,0",
            "day:367,0:0:0,7:10000000,-,-,-,-,-,-,-,-,-,-,-",
            "-,0:0:0,2:100,-,-,-,-,-,-,-,-,min:-540001:1080001,-,-",
            "-,0:0:0,2:0,-,-,-,-,-,-,-,-,min:284100:48375,-,-",
        ] {
            assert_eq!(spell_fields(&parse_fields(text).unwrap()), text);
        }
        for position in ["284100:48375", "min:1:2:3", "min:1", "deg:1:2", "1:min:2"] {
            let text = format!("-,0:0:0,-,-,-,-,-,-,-,-,-,{position},-,-");
            assert_eq!(parse_fields(&text), None, "{position}");
        }
    }
}

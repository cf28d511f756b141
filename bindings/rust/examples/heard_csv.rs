//! Prints what was heard in a serial log as CSV, with empty cells for absent fields.
//!
//!     cargo run --release -p lindenscoop --example heard_csv -- FORM [FILE]
//!
//! FORM is a name or a number; standard input is read where no file is named.

use std::env;
use std::error::Error;
use std::fs::File;
use std::io::{self, BufWriter, Read, Write};
use std::process::ExitCode;

use lindenscoop::{heard, Date, Form, Fraction, Position, Record};

const HEADER: &str = include!("../../heard_csv.columns");

fn cell<T: ToString>(field: Option<T>) -> String {
    field.map_or(String::new(), |value| value.to_string())
}

fn flag(field: Option<bool>) -> String {
    cell(field.map(|yes| if yes { "yes" } else { "no" }))
}

/// The full date and the day of year; one of them is empty.
fn date(date: Option<Date>) -> [String; 2] {
    match date {
        None => [String::new(), String::new()],
        Some(Date::DayOfYear(day)) => [String::new(), day.to_string()],
        Some(date @ Date::Full { month, day, .. }) => {
            let year = cell(date.full_year());
            [format!("{year}-{month:02}-{day:02}"), String::new()]
        }
    }
}

fn fraction(fraction: Fraction) -> String {
    format!("0.{:01$}", fraction.value(), fraction.digits())
}

fn offset(minutes: i32) -> String {
    let (sign, size) = (if minutes < 0 { '-' } else { '+' }, minutes.unsigned_abs());
    format!("{sign}{:02}:{:02}", size / 60, size % 60)
}

/// A number of hundredths or ten-thousandths, by its digits behind the point.
fn angle(value: i32, digits: usize) -> String {
    let (sign, size) = (if value < 0 { "-" } else { "" }, value.unsigned_abs());
    let parts = 10_u32.pow(digits as u32);
    format!("{sign}{}.{:02$}", size / parts, size % parts, digits)
}

/// Latitude and longitude in degrees with the altitude, and both in minutes; those of the kind that was not sent are empty.
fn position(position: Option<Position>) -> ([String; 3], [String; 2]) {
    let (mut degrees, mut minutes) = (<[String; 3]>::default(), <[String; 2]>::default());
    match position {
        None => {}
        Some(Position::Degrees {
            latitude,
            longitude,
            altitude,
        }) => {
            degrees = [
                angle(latitude, 4),
                angle(longitude, 4),
                altitude.to_string(),
            ]
        }
        Some(Position::Minutes {
            latitude,
            longitude,
        }) => minutes = [angle(latitude, 2), angle(longitude, 2)],
    }
    (degrees, minutes)
}

fn row(r: &Record) -> String {
    let [full, day_of_year] = date(r.date);
    let ([latitude, longitude, altitude], [latitude_minutes, longitude_minutes]) =
        position(r.position);
    [
        full,
        day_of_year,
        format!("{:02}:{:02}:{:02}", r.hour, r.minute, r.second),
        cell(r.fraction.map(fraction)),
        cell(r.channel),
        flag(r.sync),
        flag(r.fix),
        flag(r.utc),
        flag(r.summer),
        flag(r.change),
        flag(r.leap),
        cell(r.offset.map(offset)),
        latitude,
        longitude,
        altitude,
        flag(r.dsp),
        flag(r.lsp),
        latitude_minutes,
        longitude_minutes,
    ]
    .join(",")
}

fn print(words: &[String]) -> Result<(), Box<dyn Error>> {
    let form: Form = words
        .first()
        .ok_or("usage: heard_csv FORM [FILE]")?
        .parse()?;
    let input: Box<dyn Read> = match words.get(1) {
        Some(path) => Box::new(File::open(path)?),
        None => Box::new(io::stdin()),
    };
    let strings = heard(form, input)?;
    let mut out = BufWriter::new(io::stdout().lock());
    writeln!(out, "{HEADER}")?;
    for found in strings {
        writeln!(out, "{}", row(&found?.record))?;
    }
    Ok(out.flush()?)
}

fn main() -> ExitCode {
    let words: Vec<String> = env::args().skip(1).collect();
    match print(&words) {
        Ok(()) => ExitCode::SUCCESS,
        Err(error) => {
            eprintln!("heard_csv: {error}");
            ExitCode::FAILURE
        }
    }
}

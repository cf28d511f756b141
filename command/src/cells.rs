//! A record as a row of CSV and as a line of JSON, with the columns of bindings/heard_csv.columns. An absent field is an empty cell, or null.

use lindenscoop::{Date, Fraction, Position, Record};

pub const COLUMNS: &str = include!("../../bindings/heard_csv.columns");
const COUNT: usize = 19;

/// What stands in a cell.
#[derive(Clone, Copy)]
enum Cell {
    Absent,
    Flag(bool),
    Number(u32),
    /// ten-thousandths
    Degrees(i32),
    /// hundredths, of arc
    Minutes(i32),
    /// the year with its century
    Date(u32, u32, u32),
    Time(u32, u32, u32),
    Fraction(Fraction),
    /// minutes
    Offset(i32),
}

fn cell<T>(field: Option<T>, make: impl Fn(T) -> Cell) -> Cell {
    field.map_or(Cell::Absent, make)
}

/// Latitude and longitude in degrees with the altitude, and both in minutes; those of the kind that was not sent are absent.
fn place(position: Option<Position>) -> ([Cell; 3], [Cell; 2]) {
    let (mut degrees, mut minutes) = ([Cell::Absent; 3], [Cell::Absent; 2]);
    match position {
        None => {}
        Some(Position::Degrees {
            latitude,
            longitude,
            altitude,
        }) => {
            degrees = [
                Cell::Degrees(latitude),
                Cell::Degrees(longitude),
                Cell::Number(altitude),
            ]
        }
        Some(Position::Minutes {
            latitude,
            longitude,
        }) => minutes = [Cell::Minutes(latitude), Cell::Minutes(longitude)],
    }
    (degrees, minutes)
}

fn cells(r: &Record) -> [Cell; COUNT] {
    let ([latitude, longitude, altitude], [latitude_minutes, longitude_minutes]) =
        place(r.position);
    let (date, day_of_year) = match r.date {
        None => (Cell::Absent, Cell::Absent),
        Some(date @ Date::Full { month, day, .. }) => {
            let full = cell(date.full_year(), |year| Cell::Date(year, month, day));
            (full, Cell::Absent)
        }
        Some(Date::DayOfYear(day)) => (Cell::Absent, Cell::Number(day)),
    };
    [
        date,
        day_of_year,
        Cell::Time(r.hour, r.minute, r.second),
        cell(r.fraction, Cell::Fraction),
        cell(r.channel, Cell::Number),
        cell(r.sync, Cell::Flag),
        cell(r.fix, Cell::Flag),
        cell(r.utc, Cell::Flag),
        cell(r.summer, Cell::Flag),
        cell(r.change, Cell::Flag),
        cell(r.leap, Cell::Flag),
        cell(r.offset, Cell::Offset),
        latitude,
        longitude,
        altitude,
        cell(r.dsp, Cell::Flag),
        cell(r.lsp, Cell::Flag),
        latitude_minutes,
        longitude_minutes,
    ]
}

/// A number with at least so many digits.
pub fn number(out: &mut Vec<u8>, value: u64, digits: usize) {
    let (mut text, mut at, mut rest) = ([b'0'; 20], 20, value);
    while rest > 0 {
        at -= 1;
        text[at] = b'0' + (rest % 10) as u8;
        rest /= 10;
    }
    out.extend_from_slice(&text[at.min(20 - digits)..]);
}

/// Three numbers of two digits, with a byte between them; a record that was heard has none of more.
fn three(parts: [u32; 3], between: u8) -> [u8; 8] {
    let [[a, b], [c, d], [e, f]] =
        parts.map(|part| [b'0' + (part / 10 % 10) as u8, b'0' + (part % 10) as u8]);
    [a, b, between, c, d, between, e, f]
}

/// A number of hundredths or ten-thousandths, by its digits behind the point.
fn angle(out: &mut Vec<u8>, value: i32, digits: usize) {
    let (size, parts) = (value.unsigned_abs(), 10_u32.pow(digits as u32));
    if value < 0 {
        out.push(b'-');
    }
    number(out, (size / parts).into(), 1);
    out.push(b'.');
    number(out, (size % parts).into(), digits);
}

fn plain(out: &mut Vec<u8>, cell: Cell) {
    match cell {
        Cell::Absent => {}
        Cell::Flag(yes) => out.extend_from_slice(if yes { b"yes" } else { b"no" }),
        Cell::Number(value) => number(out, value.into(), 1),
        Cell::Degrees(value) => angle(out, value, 4),
        Cell::Minutes(value) => angle(out, value, 2),
        Cell::Date(year, month, day) => {
            number(out, (year / 100).into(), 2);
            out.extend_from_slice(&three([year % 100, month, day], b'-'));
        }
        Cell::Time(hour, minute, second) => {
            out.extend_from_slice(&three([hour, minute, second], b':'))
        }
        Cell::Fraction(fraction) => {
            out.extend_from_slice(b"0.");
            number(out, fraction.value().into(), fraction.digits());
        }
        Cell::Offset(minutes) => {
            out.push(if minutes < 0 { b'-' } else { b'+' });
            number(out, (minutes.unsigned_abs() / 60).into(), 2);
            out.push(b':');
            number(out, (minutes.unsigned_abs() % 60).into(), 2);
        }
    }
}

fn json(out: &mut Vec<u8>, cell: Cell) {
    match cell {
        Cell::Absent => out.extend_from_slice(b"null"),
        Cell::Flag(yes) => out.extend_from_slice(if yes { b"true" } else { b"false" }),
        Cell::Number(_) | Cell::Degrees(_) | Cell::Minutes(_) => plain(out, cell),
        Cell::Date(..) | Cell::Time(..) | Cell::Fraction(_) | Cell::Offset(_) => {
            out.push(b'"');
            plain(out, cell);
            out.push(b'"');
        }
    }
}

/// The cells behind the place: `,..,..` without an end of line.
pub fn csv_row(out: &mut Vec<u8>, record: &Record) {
    for cell in cells(record) {
        out.push(b',');
        plain(out, cell);
    }
}

/// The keys of JSON, each as `,"key":`.
pub struct Keys([Vec<u8>; COUNT]);

impl Keys {
    pub fn new() -> Keys {
        let mut names = COLUMNS.split(',');
        Keys(std::array::from_fn(|_| {
            let name = names.next().expect("each cell has a column");
            format!(",\"{name}\":").into_bytes()
        }))
    }
}

/// The members behind the place: `,"date":..,"longitude_minutes":..`.
pub fn json_members(out: &mut Vec<u8>, record: &Record, keys: &Keys) {
    for (key, cell) in keys.0.iter().zip(cells(record)) {
        out.extend_from_slice(key);
        json(out, cell);
    }
}

//! A record as the numbers in which it crosses to the library, in the order of the struct in lindenscoop.h.

use crate::ffi::{FlatRecord, RECORD_NUMBERS};
use crate::record::{Date, Fraction, Position, Record};

fn flag(field: Option<bool>) -> u32 {
    field.map_or(0, |yes| 1 + u32::from(yes))
}

fn flag_from(number: u32) -> Option<bool> {
    match number {
        0 => None,
        1 => Some(false),
        _ => Some(true),
    }
}

fn signed(negative: u32, magnitude: u32) -> i32 {
    let magnitude = magnitude as i32;
    if negative == 0 {
        magnitude
    } else {
        -magnitude
    }
}

fn fraction_numbers(fraction: Option<Fraction>) -> [u32; 2] {
    match fraction {
        None => [0, 0],
        Some(Fraction::Thousandths(value)) => [1, value],
        Some(Fraction::TenMillionths(value)) => [2, value],
        Some(Fraction::Hundredths(value)) => [3, value],
    }
}

fn fraction_of(kind: u32, value: u32) -> Option<Fraction> {
    match kind {
        0 => None,
        1 => Some(Fraction::Thousandths(value)),
        2 => Some(Fraction::TenMillionths(value)),
        3 => Some(Fraction::Hundredths(value)),
        // of a library that is newer than this crate; any kind in its place would be a wrong number
        kind => panic!("the library stored a fraction of kind {kind}"),
    }
}

/// Kind, sign and magnitude of latitude and longitude, altitude; a position in minutes has none.
fn position_numbers(position: Option<Position>) -> [u32; 6] {
    let numbers = |kind, latitude: i32, longitude: i32, altitude| {
        let (south, west) = (u32::from(latitude < 0), u32::from(longitude < 0));
        let (north, east) = (latitude.unsigned_abs(), longitude.unsigned_abs());
        [kind, south, north, west, east, altitude]
    };
    match position {
        None => [0; 6],
        Some(Position::Degrees {
            latitude,
            longitude,
            altitude,
        }) => numbers(1, latitude, longitude, altitude),
        Some(Position::Minutes {
            latitude,
            longitude,
        }) => numbers(2, latitude, longitude, 0),
    }
}

fn position_of(numbers: [u32; 6]) -> Option<Position> {
    let [kind, south, north, west, east, altitude] = numbers;
    let (latitude, longitude) = (signed(south, north), signed(west, east));
    match kind {
        0 => None,
        1 => Some(Position::Degrees {
            latitude,
            longitude,
            altitude,
        }),
        2 => Some(Position::Minutes {
            latitude,
            longitude,
        }),
        kind => panic!("the library stored a position of kind {kind}"),
    }
}

impl Record {
    /// The numbers in which the record crosses.
    pub(crate) fn encode(&self) -> FlatRecord {
        let mut n = [0; RECORD_NUMBERS];
        [n[0], n[1], n[2]] = [self.hour, self.minute, self.second];
        match self.date {
            None => {}
            Some(Date::Full { yy, month, day }) => [n[3], n[4], n[5], n[6]] = [1, yy, month, day],
            Some(Date::DayOfYear(day)) => [n[3], n[7]] = [2, day],
        }
        [n[8], n[9]] = fraction_numbers(self.fraction);
        if let Some(channel) = self.channel {
            [n[10], n[11]] = [1, channel];
        }
        let flags = [
            self.sync,
            self.fix,
            self.utc,
            self.summer,
            self.change,
            self.leap,
        ];
        for (place, field) in flags.into_iter().enumerate() {
            n[12 + place] = flag(field);
        }
        if let Some(offset) = self.offset {
            [n[18], n[19], n[20]] = [1, u32::from(offset < 0), offset.unsigned_abs()];
        }
        n[21..27].copy_from_slice(&position_numbers(self.position));
        [n[27], n[28]] = [flag(self.dsp), flag(self.lsp)];
        n
    }

    /// The record of numbers that the library stored.
    pub(crate) fn decode(n: &FlatRecord) -> Record {
        Record {
            hour: n[0],
            minute: n[1],
            second: n[2],
            date: match n[3] {
                0 => None,
                1 => Some(Date::Full {
                    yy: n[4],
                    month: n[5],
                    day: n[6],
                }),
                _ => Some(Date::DayOfYear(n[7])),
            },
            fraction: fraction_of(n[8], n[9]),
            channel: (n[10] != 0).then_some(n[11]),
            sync: flag_from(n[12]),
            fix: flag_from(n[13]),
            utc: flag_from(n[14]),
            summer: flag_from(n[15]),
            change: flag_from(n[16]),
            leap: flag_from(n[17]),
            offset: (n[18] != 0).then(|| signed(n[19], n[20])),
            position: position_of([n[21], n[22], n[23], n[24], n[25], n[26]]),
            dsp: flag_from(n[27]),
            lsp: flag_from(n[28]),
        }
    }
}

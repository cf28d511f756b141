//! Tests: the record's kinds of fraction and of position (document 02, W-204) in every form.

use std::collections::BTreeMap;

use crate::forms::{FORMS, SERIAL_FORMS};
use crate::generate::{any_record, good_record, Inputs, Random};
use crate::{read, write, Date, Fraction, Position, Record};

const DEGREES: Position = Position::Degrees {
    latitude: 473_500,
    longitude: 80_625,
    altitude: 431,
};

const MINUTES: Position = Position::Minutes {
    latitude: 284_100,
    longitude: 48_375,
};

const FRACTIONS: [Option<Fraction>; 4] = [
    None,
    Some(Fraction::Hundredths(7)),
    Some(Fraction::Thousandths(7)),
    Some(Fraction::TenMillionths(7)),
];

const POSITIONS: [Option<Position>; 3] = [None, Some(DEGREES), Some(MINUTES)];

/// A record that every form can write, as far as its kinds are the form's.
fn record(fraction: Option<Fraction>, position: Option<Position>) -> Record {
    Record {
        date: Some(Date::Full {
            year: 24,
            month: 1,
            day: 1,
        }),
        hour: 12,
        fraction,
        channel: Some(1),
        sync: Some(true),
        fix: Some(true),
        utc: Some(true),
        summer: Some(false),
        change: Some(false),
        leap: Some(false),
        offset: Some(60),
        position,
        dsp: Some(false),
        lsp: Some(false),
        ..Record::default()
    }
}

/// What a write answers; a refused one has changed no byte of the buffer.
fn written(form: u32, record: &Record, buffer: &mut [u8]) -> Result<usize, u32> {
    buffer.fill(0x55);
    let answer = write(form, record, buffer);
    let kept = answer.unwrap_or(0);
    assert!(buffer[kept..].iter().all(|byte| *byte == 0x55));
    answer
}

/// "8 where the wrong kind is there": never converted, and asked of the forms that carry the field.
#[test]
fn each_form_takes_its_own_kinds_alone() {
    for form in FORMS {
        for fraction in FRACTIONS {
            for position in POSITIONS {
                let fits = match form {
                    2 => fraction == FRACTIONS[3],
                    3 => position == Some(DEGREES),
                    4 => fraction == FRACTIONS[2],
                    12 => fraction == FRACTIONS[1] && position == Some(MINUTES),
                    _ => true,
                };
                let record = record(fraction, position);
                let answer = written(form, &record, &mut [0; 174]);
                assert_eq!(answer.is_ok(), fits, "form {form}: {record:?}");
                if !fits {
                    // The kind is named before the missing room.
                    assert_eq!(answer, Err(8));
                    assert_eq!(written(form, &record, &mut []), Err(8));
                }
            }
        }
    }
}

#[test]
fn the_block_keeps_each_kind() {
    for fraction in FRACTIONS {
        for position in POSITIONS {
            let record = record(fraction, position);
            let mut buffer = [0; 174];
            let length = written(9, &record, &mut buffer).unwrap();
            assert_eq!(read(9, &buffer[..length]), Ok(record));
            assert_eq!(written(9, &record, &mut buffer[..length - 1]), Err(10));
        }
    }
}

/// A kind out of its range makes a record bad in every form, also in one that does not carry it.
#[test]
fn a_value_beyond_its_kind_is_7_in_every_form() {
    let fractions = [100, u32::MAX].map(|number| Some(Fraction::Hundredths(number)));
    let minutes = |latitude, longitude| {
        Some(Position::Minutes {
            latitude,
            longitude,
        })
    };
    let positions = [
        minutes(540_001, 0),
        minutes(-540_001, 0),
        minutes(0, 1_080_001),
        minutes(0, -1_080_001),
        // Good numbers of ten-thousandths of a degree.
        minutes(900_000, 0),
        minutes(0, -1_800_000),
        minutes(i32::MIN, i32::MAX),
    ];
    for form in FORMS {
        for fraction in fractions {
            assert_eq!(written(form, &record(fraction, None), &mut []), Err(7));
        }
        for position in positions {
            assert_eq!(written(form, &record(None, position), &mut []), Err(7));
        }
    }
}

/// The fraction and position that a record has, in short: `2`, `3` or `7`, and `d` or `m`.
fn kinds(record: &Record) -> String {
    let fraction = match record.fraction {
        None => "-",
        Some(Fraction::Hundredths(_)) => "2",
        Some(Fraction::Thousandths(_)) => "3",
        Some(Fraction::TenMillionths(_)) => "7",
    };
    let position = match record.position {
        None => "-",
        Some(Position::Degrees { .. }) => "d",
        Some(Position::Minutes { .. }) => "m",
    };
    format!("{fraction}{position}")
}

#[test]
fn the_records_to_be_written_have_every_kind_in_every_form() {
    for form in FORMS {
        let mut random = Random::new(u64::from(form));
        let mut met = BTreeMap::new();
        for _ in 0..20_000 {
            let record = any_record(form, &mut random);
            *met.entry(kinds(&record)).or_insert(0) += 1;
        }
        for fraction in ["-", "2", "3", "7"] {
            for position in ["-", "d", "m"] {
                let times = met.get(&format!("{fraction}{position}")).copied();
                assert!(times > Some(50), "form {form}: {met:?}");
            }
        }
    }
}

#[test]
fn the_blocks_read_have_both_kinds_with_every_answer() {
    let mut met = BTreeMap::new();
    for input in Inputs::new(9, 12).take(40_000) {
        let text = String::from_utf8_lossy(&input);
        let lines: Vec<&str> = text.lines().collect();
        let value = |key| lines.iter().find_map(|line| line.strip_prefix(key));
        let (Some(fraction), Some(position)) = (value("fraction="), value("position=")) else {
            continue;
        };
        let answer = read(9, &input).err().unwrap_or(0);
        *met.entry((answer, "fraction", fraction.len())).or_insert(0) += 1;
        *met.entry((answer, "position", position.len())).or_insert(0) += 1;
    }
    for answer in [0, 3, 4, 5] {
        for (key, length) in [
            ("fraction", 1),
            ("fraction", 2),
            ("fraction", 3),
            ("fraction", 7),
            ("position", 1),
            ("position", 18),
            ("position", 24),
        ] {
            let times = met.get(&(answer, key, length)).copied();
            assert!(times > Some(100), "{answer} {key} {length}: {times:?}");
        }
    }
    // Half degrees and half minutes, 19 or 23 bytes.
    for length in [19, 23] {
        assert!(met.get(&(3, "position", length)) > Some(&20));
        for answer in [0, 4, 5] {
            assert_eq!(met.get(&(answer, "position", length)), None);
        }
    }
}

#[test]
fn what_is_read_is_of_the_forms_kinds() {
    for form in SERIAL_FORMS {
        let expected = match form {
            2 => "7-",
            3 => "-d",
            4 => "3-",
            12 => "2m",
            _ => "--",
        };
        let mut random = Random::new(u64::from(form));
        for _ in 0..200 {
            let record = good_record(form, &mut random);
            let mut buffer = [0; 66];
            let length = write(form, &record, &mut buffer).unwrap();
            let back = read(form, &buffer[..length]).unwrap();
            assert_eq!(kinds(&back), expected);
        }
    }
}

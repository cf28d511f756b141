//! The RMC string, form 12: one of a real clock, and others that were worked out by hand from document 02, W-204, and manual 002.

use lindenscoop::{
    append, read, telegrams, write, Date, Form, Fraction, Position, Record, Refusal,
};

const REAL: &[u8] = b"$GPRMC,220952.00,A,4742.21,N,01200.75,E,0.0,0.0,181223,0.0,E*5A\r\n";
const NORTH: &[u8] = b"$GPRMC,120000.00,A,4721.00,N,00803.75,E,0.0,0.0,010124,0.0,E*54\r\n";
const LEAP: &[u8] = b"$GPRMC,235960.99,V,0000.01,S,00000.01,W,0.0,0.0,290224,0.0,E*44\r\n";

/// The records of these strings. What the form does not carry is absent.
fn known() -> [(&'static [u8], Record); 3] {
    let real = Record {
        hour: 22,
        minute: 9,
        second: 52,
        date: Date::of_full_year(2023, 12, 18),
        fraction: Some(Fraction::Hundredths(0)),
        sync: Some(true),
        position: minutes(286_221, 72_075),
        ..Record::default()
    };
    let north = Record {
        hour: 12,
        date: Date::of_full_year(2024, 1, 1),
        position: minutes(284_100, 48_375),
        minute: 0,
        second: 0,
        ..real
    };
    let leap = Record {
        hour: 23,
        minute: 59,
        second: 60,
        date: Date::of_full_year(2024, 2, 29),
        fraction: Some(Fraction::Hundredths(99)),
        sync: Some(false),
        position: minutes(-1, -1),
        ..real
    };
    [(REAL, real), (NORTH, north), (LEAP, leap)]
}

fn minutes(latitude: i32, longitude: i32) -> Option<Position> {
    Some(Position::Minutes {
        latitude,
        longitude,
    })
}

#[test]
fn known_strings_are_read_and_written() {
    for (string, record) in known() {
        assert_eq!(read(Form::RMC, string), Ok(record));
        let mut buffer = [0; 65];
        assert_eq!(write(Form::RMC, &record, &mut buffer), Ok(65));
        assert_eq!(buffer, string);
        let short = write(Form::RMC, &record, &mut buffer[..64]);
        assert_eq!(short, Err(Refusal::ShortBuffer));
    }
}

/// The exclusive-or of the bytes between `$` and `*`, put behind the `*`.
fn summed(string: &[u8]) -> Vec<u8> {
    let star = string.iter().position(|byte| *byte == b'*').unwrap();
    let sum = string[1..star].iter().fold(0, |sum, byte| sum ^ byte);
    let sum = format!("{sum:02X}").into_bytes();
    [&string[..=star], &sum, &string[star + 3..]].concat()
}

/// A string with some bytes replaced and its sum made right again.
fn altered(old: &str, new: &str) -> Vec<u8> {
    let text = std::str::from_utf8(NORTH).unwrap();
    assert_eq!(text.matches(old).count(), 1, "{old}");
    summed(text.replace(old, new).as_bytes())
}

#[test]
fn other_spellings_are_refused() {
    let wrong = [
        ("GPRMC", "GNRMC", Refusal::WrongByte),
        (",00803.75", ",  803.75", Refusal::WrongByte),
        (",A,", ",X,", Refusal::WrongByte),
        (",N,", ",n,", Refusal::WrongByte),
        (",E,0.0", ",O,0.0", Refusal::WrongByte),
        (",0.0,0.0,", ",0.1,0.0,", Refusal::WrongByte),
        (",0.0,0.0,", ",0.0,9.0,", Refusal::WrongByte),
        (",0.0,E*", ",1.0,E*", Refusal::WrongByte),
        (",0.0,E*", ",0.0,W*", Refusal::WrongByte),
        ("\r\n", "\n\r", Refusal::WrongByte),
        ("4721", "4760", Refusal::OutOfRange),
        ("4721", "9001", Refusal::OutOfRange),
        ("00803", "00899", Refusal::OutOfRange),
        ("00803", "18003", Refusal::OutOfRange),
        ("120000", "240000", Refusal::OutOfRange),
        ("120000", "126000", Refusal::OutOfRange),
        ("120000", "120061", Refusal::OutOfRange),
        ("010124", "310424", Refusal::OutOfRange),
        ("4721.00,N", "0000.00,S", Refusal::Disagreement),
        ("00803.75,E", "00000.00,W", Refusal::Disagreement),
        ("4721.00", "4721.0000", Refusal::WrongLength),
        ("\r\n", "\n", Refusal::WrongLength),
    ];
    for (old, new, refusal) in wrong {
        let string = altered(old, new);
        assert_eq!(read(Form::RMC, &string), Err(refusal), "{old} {new}");
        assert_eq!(telegrams(Form::RMC, &string).unwrap().count(), 0);
    }
    for (old, new) in [("120000.00", "120000.99"), (",A,", ",V,"), (",N,", ",S,")] {
        assert!(read(Form::RMC, &altered(old, new)).is_ok(), "{old} {new}");
    }
}

#[test]
fn a_byte_that_is_replaced_is_noticed() {
    for (string, _) in known() {
        for at in 0..string.len() {
            for change in 1..=255 {
                let mut damaged = string.to_vec();
                damaged[at] ^= change;
                assert!(read(Form::RMC, &damaged).is_err(), "{at} {change}");
            }
        }
    }
    let small = REAL.to_ascii_lowercase();
    let letter = [&REAL[..61], &small[61..]].concat();
    assert_eq!(read(Form::RMC, &letter), Err(Refusal::WrongByte));
    let sum = [&NORTH[..61], b"70\r\n"].concat();
    assert_eq!(read(Form::RMC, &sum), Err(Refusal::WrongChecksum));
}

/// The writer asks for the carried fields, each of them, and for no others.
#[test]
fn the_writer_asks_for_what_the_form_carries() {
    let [(_, record), ..] = known();
    let (date, fraction, sync, position) = (None, None, None, None);
    let mut out = Vec::new();
    for without in [
        Record { date, ..record },
        Record { fraction, ..record },
        Record { sync, ..record },
        Record { position, ..record },
    ] {
        let refused = append(Form::RMC, &without, &mut out);
        assert_eq!(refused, Err(Refusal::MissingField), "{without:?}");
    }
    let date = Some(Date::DayOfYear(352));
    let refused = append(Form::RMC, &Record { date, ..record }, &mut out);
    assert_eq!(refused, Err(Refusal::MissingField));
    let more = Record {
        fix: Some(true),
        utc: Some(true),
        leap: Some(true),
        offset: Some(60),
        ..record
    };
    assert_eq!(append(Form::RMC, &more, &mut out), Ok(65));
    assert_eq!(out, REAL);
}

/// Half a string and strings of other receivers between them.
#[test]
fn strings_are_found_where_they_stand() {
    let other: &[u8] = b"$GPRMC,220516,A,5133.82,N,00042.24,W,173.8,231.8,130694,004.2,W*70\r\n";
    let stream = [&REAL[..20], LEAP, other, b"$$", NORTH, REAL].concat();
    let found: Vec<usize> = telegrams(Form::RMC, &stream)
        .unwrap()
        .map(|found| found.place)
        .collect();
    assert_eq!(found, [20, 155, 220]);
}

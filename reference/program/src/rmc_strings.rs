//! Tests: the RMC string, form 12 (document 02, W-204; document 002, section 6.3.6).

use crate::generate::{one_byte_changed, stream, valid_string, Random};
use crate::serial::{exclusive_or, spell_sum};
use crate::{read, search, write, Date, Fraction, Heard, Listener, Position, Record};

const FORM: u32 = 12;
const LENGTH: usize = 65;

/// A string of a real clock, which the file vectors/outside.txt has too.
const REAL: &[u8; LENGTH] = b"$GPRMC,220952.00,A,4742.21,N,01200.75,E,0.0,0.0,181223,0.0,E*5A\r\n";

/// The bytes between `$` and `*`, with a sum of their own and the line's end.
fn closed(between: &str) -> Vec<u8> {
    let sum = spell_sum(exclusive_or(between.as_bytes()));
    format!("${between}*{sum}\r\n").into_bytes()
}

/// A string on the leap day of 2024 with a status, a latitude and a longitude.
fn string(status: &str, latitude: &str, longitude: &str) -> Vec<u8> {
    closed(&format!(
        "GPRMC,235960.07,{status},{latitude},{longitude},0.0,0.0,290224,0.0,E"
    ))
}

/// A string at another time and date.
fn at(time: &str, date: &str) -> Vec<u8> {
    closed(&format!(
        "GPRMC,{time},A,4742.21,N,01200.75,E,0.0,0.0,{date},0.0,E"
    ))
}

/// The record of `string`: what the form carries and nothing else.
fn record(sync: bool, latitude: i32, longitude: i32) -> Record {
    Record {
        date: Some(Date::Full {
            year: 24,
            month: 2,
            day: 29,
        }),
        hour: 23,
        minute: 59,
        second: 60,
        fraction: Some(Fraction::Hundredths(7)),
        sync: Some(sync),
        position: Some(Position::Minutes {
            latitude,
            longitude,
        }),
        ..Record::default()
    }
}

/// The number that the reader answers, 0 for an accepted string.
fn number(input: &[u8]) -> u32 {
    read(FORM, input).err().unwrap_or(0)
}

#[test]
fn a_string_of_a_real_clock() {
    let record = Record {
        date: Some(Date::Full {
            year: 23,
            month: 12,
            day: 18,
        }),
        hour: 22,
        minute: 9,
        second: 52,
        fraction: Some(Fraction::Hundredths(0)),
        sync: Some(true),
        position: Some(Position::Minutes {
            // 47 degrees 42.21 minutes, 12 degrees 0.75 minutes.
            latitude: 286_221,
            longitude: 72_075,
        }),
        ..Record::default()
    };
    assert_eq!(read(FORM, REAL), Ok(record));
    assert_eq!(written(&record, LENGTH), (Ok(LENGTH), REAL.to_vec()));
}

#[test]
fn each_status_and_place_is_read_and_written() {
    for (latitude, north) in [
        ("0000.00,N", 0),
        ("0000.01,N", 1),
        ("0000.01,S", -1),
        ("0059.99,S", -5_999),
        ("0100.00,N", 6_000),
        ("4721.00,N", 284_100),
        ("8959.99,S", -539_999),
        ("9000.00,N", 540_000),
        ("9000.00,S", -540_000),
    ] {
        for (longitude, east) in [
            ("00000.00,E", 0),
            ("00000.01,W", -1),
            ("00803.75,E", 48_375),
            ("09959.99,W", -599_999),
            ("10000.00,E", 600_000),
            ("17959.99,E", 1_079_999),
            ("18000.00,E", 1_080_000),
            ("18000.00,W", -1_080_000),
        ] {
            for (status, sync) in [("A", true), ("V", false)] {
                let bytes = string(status, latitude, longitude);
                let record = record(sync, north, east);
                assert_eq!(bytes.len(), LENGTH);
                assert_eq!(read(FORM, &bytes), Ok(record), "{latitude} {longitude}");
                let longer = [&bytes[..], &[0x55]].concat();
                assert_eq!(written(&record, LENGTH + 1), (Ok(LENGTH), longer));
            }
        }
    }
}

#[test]
fn a_fixed_byte_digit_or_letter_that_is_wrong_is_3_whatever_its_sum() {
    for place in 0..LENGTH {
        for byte in *b"\0-x \x80\xff" {
            let mut wrong = *REAL;
            wrong[place] = byte;
            assert_eq!(number(&wrong), 3, "{byte} at {place}");
            let sum = spell_sum(exclusive_or(&wrong[1..60]));
            wrong[61..63].copy_from_slice(sum.as_bytes());
            let is_sum = (61..63).contains(&place);
            assert_eq!(number(&wrong) == 3, !is_sum, "{byte} at {place}");
        }
    }
}

#[test]
fn a_letter_of_another_place_is_3() {
    for (status, latitude, longitude) in [
        ("N", "4742.21,N", "01200.75,E"),
        ("a", "4742.21,N", "01200.75,E"),
        ("v", "4742.21,N", "01200.75,E"),
        ("A", "4742.21,E", "01200.75,E"),
        ("A", "4742.21,n", "01200.75,E"),
        ("A", "4742.21,N", "01200.75,N"),
        ("A", "4742.21,N", "01200.75,w"),
        // "Leading zeros stay", where the manuals have spaces.
        ("A", " 742.21,N", "01200.75,E"),
        ("A", "4742.21,N", " 1200.75,E"),
        ("A", "4742.21,N", "  800.75,E"),
        ("A", "-742.21,N", "01200.75,E"),
    ] {
        let bytes = string(status, latitude, longitude);
        assert_eq!(number(&bytes), 3, "{status},{latitude},{longitude}");
    }
}

#[test]
fn speed_course_and_variation_are_fixed_bytes() {
    let text = String::from_utf8(REAL.to_vec()).unwrap();
    let between = &text[1..60];
    assert_eq!(number(&closed(between)), 0);
    for (old, new) in [
        ("E,0.0,0.0,", "E,0.1,0.0,"),
        ("E,0.0,0.0,", "E,1.0,0.0,"),
        ("E,0.0,0.0,", "E,0.0,0.1,"),
        ("E,0.0,0.0,", "E,0.0,9.0,"),
        ("0.0,E", "0.1,E"),
        ("0.0,E", "1.0,E"),
        ("0.0,E", "0.0,W"),
        ("0.0,E", "0.0,e"),
        ("GPRMC", "GNRMC"),
        ("GPRMC", "GPGGA"),
    ] {
        let bytes = closed(&between.replace(old, new));
        assert_eq!(number(&bytes), 3, "{new}");
    }
}

#[test]
fn a_wrong_sum_is_6_and_no_sum_is_3() {
    let with = |sum: &[u8]| [&REAL[..61], sum, b"\r\n"].concat();
    assert_eq!(number(&with(b"5A")), 0);
    // With `$`, with `*`, with both, and without the last byte.
    for mistaken in [0x5a ^ b'$', 0x5a ^ b'*', 0x5a ^ b'$' ^ b'*', 0x5a ^ b'E'] {
        assert_eq!(number(&with(spell_sum(mistaken).as_bytes())), 6);
    }
    for wrong in [b"00", b"A5", b"5B", b"4A", b"FF"] {
        assert_eq!(number(&with(wrong)), 6);
    }
    for none in [b"5a", b"5G", b" A", b"5 ", b"x5", b"5:", b"5@"] {
        assert_eq!(number(&with(none)), 3);
    }
}

#[test]
fn another_length_is_2() {
    for length in (0..LENGTH).chain([LENGTH + 1, 66, 68, 69, 72, 130]) {
        let mut other = REAL.to_vec();
        other.resize(length, b'\n');
        assert_eq!(number(&other), 2, "{length}");
    }
    // Four digits of longitude, as 002 prints the layout; without CR, with two.
    let short = string("A", "4742.21,N", "1200.75,E");
    assert_eq!((short.len(), number(&short)), (64, 2));
    assert_eq!(number(&[&REAL[..63], b"\n"].concat()), 2);
    assert_eq!(number(&[&REAL[..63], b"\r\r\n"].concat()), 2);
    for form in [1, 2, 3, 4, 5, 6, 7, 8, 9, 10, 11] {
        assert_eq!(read(form, REAL), Err(2));
    }
    for form in [0, 13, 15, 268, u32::MAX] {
        assert_eq!(read(form, REAL), Err(1));
    }
}

#[test]
fn a_number_outside_its_range_is_4() {
    for (time, date) in [
        ("000000.00", "010100"),
        ("123460.99", "290224"),
        ("235960.00", "311299"),
        ("000000.00", "290280"),
        ("235960.00", "311279"),
    ] {
        assert_eq!(number(&at(time, date)), 0, "{time} {date}");
    }
    for (time, date) in [
        ("240000.00", "010124"),
        ("006000.00", "010124"),
        ("000061.00", "010124"),
        ("000000.00", "290223"),
        ("000000.00", "290281"),
        ("000000.00", "290299"),
        ("000000.00", "300224"),
        ("000000.00", "310424"),
        ("000000.00", "000124"),
        ("000000.00", "320124"),
        ("000000.00", "010024"),
        ("000000.00", "011324"),
    ] {
        assert_eq!(number(&at(time, date)), 4, "{time} {date}");
    }
    for (latitude, longitude) in [
        ("9000.01,N", "01200.75,E"),
        ("9000.01,S", "01200.75,E"),
        ("9100.00,N", "01200.75,E"),
        ("9959.99,S", "01200.75,E"),
        ("4742.21,N", "18000.01,E"),
        ("4742.21,N", "18000.01,W"),
        ("4742.21,N", "18100.00,E"),
        ("4742.21,N", "99959.99,W"),
    ] {
        let bytes = string("A", latitude, longitude);
        assert_eq!(number(&bytes), 4, "{latitude} {longitude}");
    }
}

/// "Minutes of 60 or more are 4", wherever they stand.
#[test]
fn minutes_of_60_or_more_are_4() {
    for (latitude, longitude) in [
        ("0060.00,N", "01200.75,E"),
        ("0060.00,S", "01200.75,E"),
        ("4760.00,N", "01200.75,E"),
        ("4799.99,N", "01200.75,E"),
        // 89 degrees 60 minutes would be 90 degrees, and 90 degrees 60 minutes are beyond them.
        ("8960.00,N", "01200.75,E"),
        ("9060.00,S", "01200.75,E"),
        ("4742.21,N", "00060.00,E"),
        ("4742.21,N", "01299.99,W"),
        ("4742.21,N", "17960.00,E"),
        ("4742.21,N", "18060.00,W"),
    ] {
        let bytes = string("V", latitude, longitude);
        assert_eq!(number(&bytes), 4, "{latitude} {longitude}");
    }
    for (latitude, longitude) in [("4759.99,N", "01259.99,E"), ("8959.99,S", "17959.99,W")] {
        assert_eq!(number(&string("V", latitude, longitude)), 0);
    }
}

#[test]
fn s_or_w_on_a_zero_is_5() {
    assert_eq!(number(&string("A", "0000.00,S", "01200.75,E")), 5);
    assert_eq!(number(&string("A", "4742.21,N", "00000.00,W")), 5);
    assert_eq!(number(&string("V", "0000.00,S", "00000.00,W")), 5);
    assert_eq!(number(&string("A", "0000.00,N", "00000.00,E")), 0);
    assert_eq!(number(&string("A", "0000.01,S", "00000.01,W")), 0);
}

#[test]
fn the_tests_stand_in_the_order_3_6_4_5() {
    // A wrong letter, a wrong sum, hour 24 and S on a zero; then each without the one before.
    let wrong = |variation: &str, time: &str, sum: Option<&str>| {
        let between = format!("GPRMC,{time},A,0000.00,S,01200.75,E,0.0,0.0,290224,0.0,{variation}");
        let mut bytes = closed(&between);
        if let Some(sum) = sum {
            bytes[61..63].copy_from_slice(sum.as_bytes());
        }
        number(&bytes)
    };
    assert_eq!(wrong("W", "240000.00", Some("00")), 3);
    assert_eq!(wrong("E", "240000.00", Some("0a")), 3);
    assert_eq!(wrong("E", "240000.00", Some("00")), 6);
    assert_eq!(wrong("E", "240000.00", None), 4);
    assert_eq!(wrong("E", "230000.00", None), 5);
    // S on a zero beside a longitude beyond its range, and beside minutes of 60.
    assert_eq!(number(&string("A", "0000.00,S", "18000.01,E")), 4);
    assert_eq!(number(&string("A", "0000.00,S", "01260.00,E")), 4);
    assert_eq!(number(&string("A", "0060.00,S", "00000.00,W")), 4);
}

/// Fields that the string does not carry.
fn more_fields() -> Record {
    Record {
        channel: Some(1),
        fix: Some(false),
        utc: Some(false),
        summer: Some(true),
        change: Some(true),
        leap: Some(true),
        offset: Some(-345),
        dsp: Some(true),
        lsp: Some(false),
        ..record(true, -284_100, 48_375)
    }
}

/// What a write answers and leaves in a buffer of a length.
fn written(record: &Record, length: usize) -> (Result<usize, u32>, Vec<u8>) {
    let mut buffer = vec![0x55; length];
    let answer = write(FORM, record, &mut buffer);
    if answer.is_err() {
        assert!(buffer.iter().all(|byte| *byte == 0x55));
    }
    (answer, buffer)
}

#[test]
fn fields_that_are_not_carried_are_not_asked_for_and_do_not_come_back() {
    let bytes = string("A", "4721.00,S", "00803.75,E");
    assert_eq!(written(&more_fields(), LENGTH), (Ok(LENGTH), bytes.clone()));
    assert_eq!(read(FORM, &bytes), Ok(record(true, -284_100, 48_375)));
}

#[test]
fn a_carried_field_that_is_absent_or_of_another_kind_is_8() {
    let thin: [fn(&mut Record); 8] = [
        |record| record.date = None,
        |record| record.date = Some(Date::DayOfYear(60)),
        |record| record.fraction = None,
        |record| record.fraction = Some(Fraction::Thousandths(70)),
        |record| record.fraction = Some(Fraction::TenMillionths(700_000)),
        |record| record.sync = None,
        |record| record.position = None,
        |record| {
            record.position = Some(Position::Degrees {
                latitude: -473_500,
                longitude: 80_625,
                altitude: 0,
            })
        },
    ];
    for remove in thin {
        let mut record = more_fields();
        remove(&mut record);
        assert_eq!(written(&record, LENGTH).0, Err(8), "{record:?}");
        // The missing field is named before the missing room.
        assert_eq!(written(&record, 0).0, Err(8), "{record:?}");
    }
}

#[test]
fn a_bad_record_is_7_before_all_else() {
    let minutes = |latitude, longitude| {
        Some(Position::Minutes {
            latitude,
            longitude,
        })
    };
    let mut bad = Vec::new();
    for fraction in [100, 999, u32::MAX] {
        bad.push(Record {
            fraction: Some(Fraction::Hundredths(fraction)),
            ..more_fields()
        });
    }
    for position in [minutes(540_001, 0), minutes(0, -1_080_001)] {
        bad.push(Record {
            position,
            ..more_fields()
        });
    }
    bad.push(Record {
        utc: Some(true),
        ..more_fields()
    });
    bad.push(Record {
        second: 61,
        ..more_fields()
    });
    for mut record in bad {
        assert_eq!(written(&record, LENGTH).0, Err(7), "{record:?}");
        record.sync = None;
        assert_eq!(written(&record, 0).0, Err(7), "{record:?}");
    }
}

#[test]
fn a_buffer_of_64_bytes_is_10_and_of_66_keeps_its_last() {
    let record = record(false, 540_000, -1_080_000);
    let bytes = string("V", "9000.00,N", "18000.00,W");
    for short in [0, 1, 64] {
        assert_eq!(written(&record, short).0, Err(10));
    }
    assert_eq!(written(&record, 65), (Ok(65), bytes.clone()));
    let longer = [&bytes[..], &[0x55]].concat();
    assert_eq!(written(&record, 66), (Ok(65), longer));
}

/// The records that a listener hands out, each with the number of its last byte.
fn heard(stream: &[u8]) -> Vec<(usize, Record)> {
    let (refusal, mut listener) = Listener::start(FORM);
    assert_eq!((refusal, listener.distance), (0, LENGTH));
    let mut records = Vec::new();
    for (before, byte) in stream.iter().enumerate() {
        let (next, heard) = listener.feed(*byte);
        listener = next;
        match heard {
            Heard::Nothing => {}
            Heard::Record(record) => records.push((before + 1, record)),
            Heard::Refused(refusal) => panic!("refused with {refusal}"),
        }
    }
    records
}

#[test]
fn damage_costs_only_the_strings_it_touches() {
    let good = string("A", "4721.00,N", "00803.75,E");
    let one = record(true, 284_100, 48_375);
    // A whole string; half of one; one with a wrong sum; a false start and another sentence.
    let mut wrong_sum = good.clone();
    wrong_sum[61..63].copy_from_slice(b"00");
    let sentence = b"$GPRMC,,V,,,,,,,260810,1.0,E,N*34\r\n";
    let mut stream = good.clone();
    stream.extend(&good[..40]);
    stream.extend(&good);
    stream.extend(wrong_sum);
    stream.extend(b"$$");
    stream.extend(sentence);
    stream.extend(&good);
    stream.extend(&good[1..]);
    stream.extend(&good);
    let ends = [65, 65 + 40 + 65, 170 + 65 + 2 + 35 + 65, 337 + 64 + 65];
    assert_eq!(heard(&stream), ends.map(|end| (end, one)));
    for end in ends {
        assert_eq!(search(FORM, &stream, end - LENGTH), Ok((end - LENGTH, one)));
    }
    assert_eq!(search(FORM, &stream, ends[3] - LENGTH + 1), Err(12));
}

#[test]
fn strings_around_a_damaged_one_are_heard() {
    let mut random = Random::new(12);
    for _ in 0..2000 {
        let [before, middle, behind] = [(); 3].map(|_| valid_string(FORM, &mut random));
        let damaged = one_byte_changed(FORM, middle, &mut random);
        let stream = [&before[..], &damaged, &behind].concat();
        let mut expected = vec![(65, read(FORM, &before).unwrap())];
        expected.extend(read(FORM, &damaged).map(|record| (130, record)));
        expected.push((195, read(FORM, &behind).unwrap()));
        assert_eq!(heard(&stream), expected);
    }
}

#[test]
fn a_later_listener_hears_what_begins_behind_its_start() {
    let mut random = Random::new(13);
    for _ in 0..300 {
        let stream = stream(FORM, &mut random);
        let start = random.below(stream.len() + 1);
        let all = heard(&stream).into_iter();
        let later = all.filter(|(end, _)| *end >= start + LENGTH);
        let later: Vec<_> = later.map(|(end, record)| (end - start, record)).collect();
        assert_eq!(heard(&stream[start..]), later);
    }
}

#[test]
fn a_state_of_form_12_is_11_by_its_bytes_and_distance_alone() {
    let state = |kept: &[u8], distance: usize| Listener {
        form: FORM,
        kept: kept.to_vec(),
        distance,
    };
    for bad in [state(REAL, 65), state(&REAL[..64], 66), state(b"", 66)] {
        assert_eq!(bad.clone().feed(b'\n'), (bad, Heard::Refused(11)));
    }
    let record = read(FORM, REAL).unwrap();
    for (distance, next_distance, answer) in [
        (65, 0, Heard::Record(record)),
        (64, 0, Heard::Record(record)),
        (63, 64, Heard::Refused(13)),
        (0, 1, Heard::Refused(13)),
    ] {
        let (next, heard) = state(&REAL[..64], distance).feed(b'\n');
        assert_eq!((next, heard), (state(&REAL[1..], next_distance), answer));
    }
    for form in [0, 8, 9, 11, 13, 268] {
        let bad = Listener {
            form,
            ..state(&REAL[..64], 64)
        };
        assert_eq!(bad.clone().feed(b'\n'), (bad, Heard::Refused(11)));
    }
}

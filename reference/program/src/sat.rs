//! Tests: the SAT string, form 10 (document 02, W-201; document 004, section 12.2.2).

use crate::generate::{one_byte_changed, stream, valid_string, Random};
use crate::{read, search, write, Date, Fraction, Heard, Listener, Position, Record};

const FORM: u32 = 10;
const LENGTH: usize = 29;

/// A string on Thursday, the leap day of 2024, with a zone and the letters u and v.
fn string(zone: &str, letters: &str) -> Vec<u8> {
    format!("\x0229.02.24/4/23:59:60{zone}{letters}\r\n\x03").into_bytes()
}

/// A string of UTC with another date, weekday and time.
fn at(moment: &str) -> Vec<u8> {
    format!("\x02{moment}UTC   \r\n\x03").into_bytes()
}

/// The record of `string`: what the form carries and nothing else.
fn record(utc: bool, summer: bool, sync: bool, change: bool) -> Record {
    Record {
        date: Some(Date::Full {
            year: 24,
            month: 2,
            day: 29,
        }),
        hour: 23,
        minute: 59,
        second: 60,
        sync: Some(sync),
        utc: Some(utc),
        summer: Some(summer),
        change: Some(change),
        ..Record::default()
    }
}

/// The number that the reader answers, 0 for an accepted string.
fn number(input: &[u8]) -> u32 {
    read(FORM, input).err().unwrap_or(0)
}

#[test]
fn each_zone_with_each_letter_is_read_and_written() {
    let zones = [
        ("UTC ", true, false),
        ("CET ", false, false),
        ("CEST", false, true),
    ];
    let letters = [
        ("  ", true, false),
        ("# ", false, false),
        (" !", true, true),
        ("#!", false, true),
    ];
    for (zone, utc, summer) in zones {
        for (uv, sync, change) in letters {
            let bytes = string(zone, uv);
            let record = record(utc, summer, sync, change);
            assert_eq!(bytes.len(), LENGTH);
            assert_eq!(read(FORM, &bytes), Ok(record), "{zone}{uv}");
            let mut buffer = [0x55; LENGTH + 1];
            assert_eq!(write(FORM, &record, &mut buffer), Ok(LENGTH));
            assert_eq!((&buffer[..LENGTH], buffer[LENGTH]), (&bytes[..], 0x55));
        }
    }
}

#[test]
fn a_word_that_is_none_of_the_three_is_3() {
    let german = ["MEZ ", "MESZ"];
    let other_case = ["utc ", "Utc ", "cet ", "cest", "CESt"];
    let other_padding = [" UTC", " CET", "UTC\0", "UTC_", "UTC0", "UTC\r", "CET\t"];
    let other_words = ["    ", "GMT ", "EET ", "EEST", "CES ", "CETS", "UTCS"];
    let words = [&german[..], &other_case, &other_padding, &other_words].concat();
    for word in words {
        assert_eq!(number(&string(word, "  ")), 3, "{word}");
    }
}

#[test]
fn the_letters_of_the_other_places_and_manuals_are_3() {
    // `*` at u is the letter of 001, `A` is the leap letter of form 1, which the string has not.
    for letters in [
        "* ", " *", "A ", " A", "! ", " #", "!#", "##", "!!", "U ", " S", "\0 ",
    ] {
        assert_eq!(number(&string("CET ", letters)), 3, "{letters}");
    }
}

#[test]
fn a_fixed_byte_or_digit_that_is_wrong_is_3() {
    let good = string("CEST", "#!");
    for place in 0..LENGTH {
        for byte in *b"\0-x\x80\xff" {
            let mut wrong = good.clone();
            wrong[place] = byte;
            assert_eq!(number(&wrong), 3, "{byte} at {place}");
        }
    }
}

#[test]
fn another_length_is_2() {
    let good = string("UTC ", "  ");
    assert_eq!(number(&good), 0);
    for length in (0..LENGTH).chain([LENGTH + 1, 32, 66]) {
        let mut other = good.clone();
        other.resize(length, b' ');
        assert_eq!(number(&other), 2, "{length}");
    }
    // Three letters without a space behind, and as the layout of 004 is printed.
    assert_eq!(number(&string("UTC", "  ")), 2);
    assert_eq!(number(&string("UTC  ", "  ")), 2);
    assert_eq!(number(b"\x0229.02.24/4/23:59:60UTC  \x03"), 2);
    // The other strings between STX and ETX.
    assert_eq!(number(b"\x02D:01.01.24;T:1;U:12.00.00;  U \x03"), 2);
    assert_eq!(read(1, &good), Err(2));
    assert_eq!(read(3, &good), Err(2));
}

#[test]
fn a_number_outside_its_range_is_4() {
    assert_eq!(number(&at("29.02.24/4/00:00:00")), 0);
    assert_eq!(number(&at("01.01.80/2/00:00:00")), 0);
    assert_eq!(number(&at("31.12.99/5/23:59:60")), 0);
    assert_eq!(number(&at("01.01.00/6/12:34:60")), 0);
    assert_eq!(number(&at("31.12.79/7/23:59:60")), 0);
    for moment in [
        "29.02.23/4/00:00:00",
        "29.02.23/3/00:00:00",
        "30.02.24/5/00:00:00",
        "31.04.24/3/00:00:00",
        "00.02.24/4/00:00:00",
        "32.01.24/4/00:00:00",
        "29.00.24/4/00:00:00",
        "29.13.24/4/00:00:00",
        "29.02.24/0/00:00:00",
        "29.02.24/8/00:00:00",
        "29.02.24/9/00:00:00",
        "29.02.24/4/24:00:00",
        "29.02.24/4/00:60:00",
        "29.02.24/4/00:00:61",
    ] {
        assert_eq!(number(&at(moment)), 4, "{moment}");
    }
}

#[test]
fn a_weekday_against_the_date_is_5() {
    for weekday in (1..=7).filter(|weekday| *weekday != 4) {
        let moment = format!("29.02.24/{weekday}/00:00:00");
        assert_eq!(number(&at(&moment)), 5, "{moment}");
    }
}

#[test]
fn the_tests_stand_in_the_order_3_4_5() {
    // A wrong word behind day 30 and weekday 9; then day 30 with a weekday; then the weekday alone.
    assert_eq!(number(b"\x0230.02.24/9/23:59:60MEZ   \r\n\x03"), 3);
    assert_eq!(number(b"\x0230.02.24/9/23:59:60CET * \r\n\x03"), 3);
    assert_eq!(number(b"\x0230.02.24/3/23:59:60CET   \r\n\x03"), 4);
    assert_eq!(number(b"\x0229.02.24/3/23:59:61CET   \r\n\x03"), 4);
    assert_eq!(number(b"\x0229.02.24/3/23:59:60CET   \r\n\x03"), 5);
}

/// Fields that the string does not carry.
fn more_fields() -> Record {
    Record {
        fraction: Some(Fraction::Thousandths(1)),
        channel: Some(1),
        fix: Some(false),
        leap: Some(true),
        offset: Some(-345),
        position: Some(Position::Degrees {
            latitude: 1,
            longitude: -1,
            altitude: 1,
        }),
        dsp: Some(true),
        lsp: Some(false),
        ..record(false, true, true, true)
    }
}

/// What a write answers and leaves in a buffer of a length.
fn written(record: &Record, length: usize) -> (Result<usize, u32>, Vec<u8>) {
    let mut buffer = vec![0x55; length];
    let answer = write(FORM, record, &mut buffer);
    if answer.is_err() {
        assert!(buffer.iter().all(|byte| *byte == 0x55));
    }
    (answer, buffer)
}

#[test]
fn fields_that_are_not_carried_are_not_asked_for_and_do_not_come_back() {
    // Change and leap both yes is no matter here: the string has no letter for leap.
    let bytes = string("CEST", " !");
    assert_eq!(written(&more_fields(), 29), (Ok(29), bytes.clone()));
    assert_eq!(read(FORM, &bytes), Ok(record(false, true, true, true)));
    for fix in [None, Some(false), Some(true)] {
        let record = Record {
            fix,
            ..record(false, true, true, true)
        };
        assert_eq!(written(&record, 29).1, bytes);
    }
}

#[test]
fn a_carried_field_that_is_absent_is_8() {
    let thin: [fn(&mut Record); 6] = [
        |record| record.date = None,
        |record| record.date = Some(Date::DayOfYear(60)),
        |record| record.sync = None,
        |record| record.utc = None,
        |record| record.summer = None,
        |record| record.change = None,
    ];
    for remove in thin {
        let mut record = more_fields();
        remove(&mut record);
        assert_eq!(written(&record, 29).0, Err(8), "{record:?}");
        // The missing field is named before the missing room.
        assert_eq!(written(&record, 28).0, Err(8), "{record:?}");
    }
}

#[test]
fn a_bad_record_is_7_before_all_else() {
    let spoil: [fn(&mut Record); 6] = [
        |record| record.utc = Some(true),
        |record| record.second = 61,
        |record| record.hour = 24,
        |record| record.channel = Some(2),
        |record| record.offset = Some(841),
        |record| {
            record.date = Some(Date::Full {
                year: 23,
                month: 2,
                day: 29,
            })
        },
    ];
    for bend in spoil {
        let mut record = more_fields();
        bend(&mut record);
        assert_eq!(written(&record, 29).0, Err(7), "{record:?}");
        record.sync = None;
        assert_eq!(written(&record, 0).0, Err(7), "{record:?}");
    }
}

#[test]
fn a_buffer_of_28_bytes_is_10_and_of_30_keeps_its_last() {
    let record = record(true, false, false, false);
    let bytes = string("UTC ", "# ");
    for short in [0, 1, 28] {
        assert_eq!(written(&record, short).0, Err(10));
    }
    assert_eq!(written(&record, 29), (Ok(29), bytes.clone()));
    let longer = [&bytes[..], &[0x55]].concat();
    assert_eq!(written(&record, 30), (Ok(29), longer));
    let mut buffer = [0x55; 30];
    assert_eq!(write(15, &record, &mut buffer), Err(1));
}

/// The records that a listener hands out, each with the number of its last byte.
fn heard(stream: &[u8]) -> Vec<(usize, Record)> {
    let (refusal, mut listener) = Listener::start(FORM);
    assert_eq!((refusal, listener.distance), (0, LENGTH));
    let mut records = Vec::new();
    for (before, byte) in stream.iter().enumerate() {
        let (next, heard) = listener.feed(*byte);
        listener = next;
        match heard {
            Heard::Nothing => {}
            Heard::Record(record) => records.push((before + 1, record)),
            Heard::Refused(refusal) => panic!("refused with {refusal}"),
        }
    }
    records
}

#[test]
fn damage_costs_only_the_strings_it_touches() {
    let good = string("CET ", " !");
    let one = record(false, false, true, true);
    // A whole string; half of one; one in a German zone; a false start and a Standard string.
    let mut stream = good.clone();
    stream.extend(&good[..15]);
    stream.extend(&good);
    stream.extend(string("MEZ ", " !"));
    stream.extend(b"\x02\x02D:01.01.24;T:1;U:12.00.00;  U \x03");
    stream.extend(&good);
    stream.extend(&good[1..]);
    stream.extend(&good);
    let ends = [29, 29 + 15 + 29, 73 + 29 + 33 + 29, 164 + 28 + 29];
    assert_eq!(heard(&stream), ends.map(|end| (end, one)));
    for end in ends {
        assert_eq!(search(FORM, &stream, end - LENGTH), Ok((end - LENGTH, one)));
    }
    assert_eq!(search(FORM, &stream, ends[3] - LENGTH + 1), Err(12));
}

#[test]
fn strings_around_a_damaged_one_are_heard() {
    let mut random = Random::new(10);
    for _ in 0..2000 {
        let [before, middle, behind] = [(); 3].map(|_| valid_string(FORM, &mut random));
        let damaged = one_byte_changed(FORM, middle, &mut random);
        let stream = [&before[..], &damaged, &behind].concat();
        let mut expected = vec![(29, read(FORM, &before).unwrap())];
        expected.extend(read(FORM, &damaged).map(|record| (58, record)));
        expected.push((87, read(FORM, &behind).unwrap()));
        assert_eq!(heard(&stream), expected);
    }
}

#[test]
fn a_later_listener_hears_what_begins_behind_its_start() {
    let mut random = Random::new(11);
    for _ in 0..300 {
        let stream = stream(FORM, &mut random);
        let start = random.below(stream.len() + 1);
        let all = heard(&stream).into_iter();
        let later = all.filter(|(end, _)| *end >= start + LENGTH);
        let later: Vec<_> = later.map(|(end, record)| (end - start, record)).collect();
        assert_eq!(heard(&stream[start..]), later);
    }
}

#[test]
fn a_state_of_form_10_is_11_by_its_bytes_and_distance_alone() {
    let s = string("UTC ", "  ");
    let state = |kept: &[u8], distance: usize| Listener {
        form: FORM,
        kept: kept.to_vec(),
        distance,
    };
    for bad in [state(&s, 29), state(&s[..28], 30), state(b"", 30)] {
        assert_eq!(bad.clone().feed(3), (bad, Heard::Refused(11)));
    }
    let record = record(true, false, true, false);
    for (distance, next_distance, answer) in [
        (29, 0, Heard::Record(record)),
        (28, 0, Heard::Record(record)),
        (27, 28, Heard::Refused(13)),
        (0, 1, Heard::Refused(13)),
    ] {
        let (next, heard) = state(&s[..28], distance).feed(3);
        assert_eq!((next, heard), (state(&s[1..], next_distance), answer));
    }
    for form in [8, 9, 11] {
        let bad = Listener {
            form,
            ..state(&s[..28], 28)
        };
        assert_eq!(bad.clone().feed(3), (bad, Heard::Refused(11)));
    }
}

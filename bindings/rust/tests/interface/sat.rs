//! The SAT string, form 10, on strings that were worked out by hand from document 02 and manual 004.

use lindenscoop::{append, read, telegrams, write, Date, Form, Record, Refusal};

const UTC: &[u8] = b"\x0201.01.24/1/12:00:00UTC   \r\n\x03";
const CET: &[u8] = b"\x0231.03.24/7/01:59:60CET #!\r\n\x03";
const CEST: &[u8] = b"\x0231.03.24/7/03:00:00CEST  \r\n\x03";

/// The records of these strings. What the form does not carry is absent.
fn known() -> [(&'static [u8], Record); 3] {
    let utc = Record {
        hour: 12,
        date: Date::of_full_year(2024, 1, 1),
        sync: Some(true),
        utc: Some(true),
        summer: Some(false),
        change: Some(false),
        ..Record::default()
    };
    let cest = Record {
        hour: 3,
        date: Date::of_full_year(2024, 3, 31),
        utc: Some(false),
        summer: Some(true),
        ..utc
    };
    let cet = Record {
        hour: 1,
        minute: 59,
        second: 60,
        sync: Some(false),
        summer: Some(false),
        change: Some(true),
        ..cest
    };
    [(UTC, utc), (CET, cet), (CEST, cest)]
}

#[test]
fn known_strings_are_read_and_written() {
    for (string, record) in known() {
        assert_eq!(read(Form::SAT, string), Ok(record));
        let mut buffer = [0; 29];
        assert_eq!(write(Form::SAT, &record, &mut buffer), Ok(29));
        assert_eq!(buffer, string);
        let short = write(Form::SAT, &record, &mut buffer[..28]);
        assert_eq!(short, Err(Refusal::ShortBuffer));
    }
}

/// Each string with some bytes replaced, and the refusal.
#[test]
fn other_spellings_are_refused() {
    let wrong: [(&[u8], &[u8], Refusal); 12] = [
        (b"UTC ", b"MEZ ", Refusal::WrongByte),
        (b"UTC ", b"MESZ", Refusal::WrongByte),
        (b"UTC ", b" UTC", Refusal::WrongByte),
        (b"UTC ", b"utc ", Refusal::WrongByte),
        (b"UTC  ", b"UTC *", Refusal::WrongByte),
        (b"UTC   ", b"UTC  A", Refusal::WrongByte),
        (b"\r\n\x03", b"\n\r\x03", Refusal::WrongByte),
        (b"/1/", b";1;", Refusal::WrongByte),
        (b"/1/", b"/8/", Refusal::OutOfRange),
        (b"/1/", b"/0/", Refusal::OutOfRange),
        (b"/1/", b"/2/", Refusal::Disagreement),
        (b"\r\n\x03", b"\x03", Refusal::WrongLength),
    ];
    for (old, new, refusal) in wrong {
        let at = UTC.windows(old.len()).position(|part| part == old).unwrap();
        let string = [&UTC[..at], new, &UTC[at + old.len()..]].concat();
        assert_eq!(read(Form::SAT, &string), Err(refusal), "{string:?}");
        assert_eq!(telegrams(Form::SAT, &string).unwrap().count(), 0);
    }
}

/// The writer asks for the carried fields, each of them, and for no others.
#[test]
fn the_writer_asks_for_what_the_form_carries() {
    let [(_, record), ..] = known();
    let (date, sync, utc, summer, change) = (None, None, None, None, None);
    let mut out = Vec::new();
    for without in [
        Record { date, ..record },
        Record { sync, ..record },
        Record { utc, ..record },
        Record { summer, ..record },
        Record { change, ..record },
    ] {
        let refused = append(Form::SAT, &without, &mut out);
        assert_eq!(refused, Err(Refusal::MissingField), "{without:?}");
    }
    let date = Some(Date::DayOfYear(1));
    let refused = append(Form::SAT, &Record { date, ..record }, &mut out);
    assert_eq!(refused, Err(Refusal::MissingField));
    let leap = Some(true);
    let both = Record { leap, ..record };
    assert_eq!(append(Form::SAT, &both, &mut out), Ok(29));
    assert_eq!(out, UTC);
}

/// Strings of the three forms that begin with STX, each heard for its own form alone.
#[test]
fn forms_that_begin_alike_are_told_apart() {
    let standard: &[u8] = b"\x02D:01.01.24;T:1;U:12.00.00;  U \x03";
    let erlangen: &[u8] =
        b"\x0201.01.24; 1; 13:00:00; +01:00; #*     ; 47.3500N   8.0625E  431m\x03";
    let stream = [standard, UTC, erlangen, CET, standard, CEST, erlangen].concat();
    for (form, places) in [
        (Form::STANDARD, &[0, 156][..]),
        (Form::ERLANGEN, &[61, 217]),
        (Form::SAT, &[32, 127, 188]),
    ] {
        let found: Vec<usize> = telegrams(form, &stream)
            .unwrap()
            .map(|found| found.place)
            .collect();
        assert_eq!(found, places, "{form}");
    }
}

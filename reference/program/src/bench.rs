//! Tests: section "Strings on the bench" of document 01.

use crate::forms::FRAME_FORMS;
use crate::protocol::parse_fields;
use crate::{read, write, Date, Fraction, Position, Record};

fn full(year: u32, month: u32, day: u32) -> Option<Date> {
    Some(Date::Full { year, month, day })
}

/// Case L and the frame tests: 24-01-01 00:00:00, sync yes, offset 0, all else no.
pub(crate) fn frame_record() -> Record {
    Record {
        date: full(24, 1, 1),
        sync: Some(true),
        summer: Some(false),
        offset: Some(0),
        dsp: Some(false),
        lsp: Some(false),
        ..Record::default()
    }
}

pub(crate) fn frame_with_ones(ones: &[usize]) -> Vec<u8> {
    let mut elements = vec![0; 100];
    elements[0] = 2;
    for tens in 0..10 {
        elements[10 * tens + 9] = 2;
    }
    for place in ones {
        elements[*place] = 1;
    }
    elements
}

#[test]
fn a_b_c() {
    let a = Record {
        date: full(24, 1, 1),
        hour: 12,
        sync: Some(true),
        fix: Some(true),
        utc: Some(true),
        summer: Some(false),
        change: Some(false),
        leap: Some(false),
        ..Record::default()
    };
    let string = b"\x02D:01.01.24;T:1;U:12.00.00;  U \x03";
    assert_eq!(read(1, string), Ok(a));
    assert_eq!(read(1, b"\x02D:01.01.24;T:2;U:12.00.00;  U \x03"), Err(5));
    assert_eq!(read(1, b"\x02D:01.01.24;T:8;U:12.00.00;  U \x03"), Err(4));

    let mut buffer = [0x55; 33];
    assert_eq!(write(1, &a, &mut buffer[..31]), Err(10));
    assert_eq!(buffer, [0x55; 33]);
    assert_eq!(write(1, &a, &mut buffer[..32]), Ok(32));
    assert_eq!(&buffer[..32], string);
    assert_eq!(buffer[32], 0x55);
}

#[test]
fn d_e() {
    let d = Record {
        date: full(24, 2, 29),
        hour: 23,
        minute: 59,
        second: 60,
        sync: Some(false),
        fix: Some(false),
        utc: Some(false),
        summer: Some(true),
        change: Some(true),
        leap: Some(false),
        ..Record::default()
    };
    assert_eq!(read(1, b"\x02D:29.02.24;T:4;U:23.59.60;#*S!\x03"), Ok(d));
    assert_eq!(read(1, b"\x02D:29.02.23;T:4;U:23.59.60;#*S!\x03"), Err(4));
}

#[test]
fn f_g() {
    let f = Record {
        date: full(24, 1, 1),
        hour: 12,
        fraction: Some(Fraction::Thousandths(0)),
        ..Record::default()
    };
    assert_eq!(read(4, b">900WD:24-01-01 12.00;00.000:3A\r"), Ok(f));
    assert_eq!(read(4, b">900WD:24-01-01 12.00;00.000:00\r"), Err(6));
}

#[test]
fn h() {
    let h = Record {
        date: full(0, 2, 29),
        ..Record::default()
    };
    assert_eq!(read(5, b"XGU000229000000\r"), Ok(h));
}

#[test]
fn i_j() {
    let i = Record {
        date: Some(Date::DayOfYear(366)),
        hour: 23,
        minute: 59,
        second: 60,
        sync: Some(false),
        ..Record::default()
    };
    assert_eq!(read(6, b"\x01366:23:59:60?\r\n"), Ok(i));

    let j = parse_fields("full:23:12:31,23:59:59,-,-,1,-,-,-,-,-,-,-,-,-").unwrap();
    let mut buffer = [0; 16];
    assert_eq!(write(6, &j, &mut buffer), Ok(16));
    assert_eq!(&buffer, b"\x01365:23:59:59 \r\n");
    assert_eq!(
        read(6, &buffer).map(|record| record.date),
        Ok(Some(Date::DayOfYear(365)))
    );
}

#[test]
fn k() {
    assert_eq!(read(2, b"CH2 01.01.24 12:00:00.0000000\r\n"), Err(4));
    assert!(read(2, b"CH1 01.01.24 12:00:00.0000000\r\n").is_ok());
}

#[test]
fn l() {
    // Its offset is zero, so that the frame is the same under both numbers (document 02, W-203).
    let elements = frame_with_ones(&[30, 52, 56, 75]);
    for form in FRAME_FORMS {
        let mut buffer = [9; 100];
        assert_eq!(write(form, &frame_record(), &mut buffer), Ok(100));
        assert_eq!(&buffer[..], elements);
        assert_eq!(read(form, &elements), Ok(frame_record()));
    }
}

#[test]
fn the_erlangen_string() {
    let record = Record {
        date: full(24, 1, 1),
        hour: 13,
        offset: Some(60),
        sync: Some(false),
        fix: Some(false),
        summer: Some(false),
        change: Some(false),
        leap: Some(false),
        position: Some(Position::Degrees {
            latitude: 473_500,
            longitude: 80_625,
            altitude: 431,
        }),
        ..Record::default()
    };
    let string = |place: &str| {
        let head = "\x0201.01.24; 1; 13:00:00; +01:00; #*     ;";
        format!("{head}{place}   8.0625E  431m\x03").into_bytes()
    };
    assert_eq!(read(3, &string(" 47.3500N")), Ok(record));
    assert_eq!(read(3, &string("  0.0000S")), Err(5));
}

#[test]
fn the_other_lines() {
    let mut record = frame_record();
    let mut buffer = [0; 174];
    record.offset = Some(345);
    assert_eq!(write(8, &record, &mut buffer), Err(9));
    assert_eq!(write(11, &record, &mut buffer), Err(9));
    for form in [8, 9, 11] {
        record.offset = Some(840);
        assert!(write(form, &record, &mut buffer).is_ok());
        record.offset = Some(841);
        assert_eq!(write(form, &record, &mut buffer), Err(7));
    }

    let too_long = crate::generate::too_long_block();
    assert_eq!(too_long.len(), 175);
    assert_eq!(read(9, &too_long), Err(2));
    let length = write(9, &Record::default(), &mut buffer).unwrap();
    assert_eq!(read(9, &buffer[..length]), Ok(Record::default()));
    assert_eq!(read(9, &buffer[..117]), Err(2));
}

#[test]
fn a_wrong_byte_is_3_before_any_range_and_a_range_is_4_before_any_disagreement() {
    // A wrong ETX behind day 32 and weekday 9; then day 32 with a wrong weekday.
    assert_eq!(read(1, b"\x02D:32.01.24;T:9;U:12.00.00;  U \x00"), Err(3));
    assert_eq!(read(1, b"\x02D:01.01.24;T:2;U:12.00.61;  U \x03"), Err(4));
    // A minus on zero, and an altitude that lacks its last digit.
    let string = b"\x0201.01.24; 2; 13:00:00; -00:00; #*     ; 90.0001N   8.0625E     m\x03";
    assert_eq!(read(3, string), Err(3));
    let string = b"\x0201.01.24; 2; 13:00:00; -00:00; #*     ; 90.0001N   8.0625E    0m\x03";
    assert_eq!(read(3, string), Err(4));
    let string = b"\x0201.01.24; 2; 13:00:00; -00:00; #*     ; 90.0000N   8.0625E    0m\x03";
    assert_eq!(read(3, string), Err(5));
    // The sum stands before the ranges.
    assert_eq!(read(4, b">900WD:24-13-01 12.00;00.000:00\r"), Err(6));
}

#[test]
fn the_frame_is_refused_in_the_order_3_6_4_5() {
    let l = [30, 52, 56, 75];
    let with = |more: &[usize]| frame_with_ones(&[&l[..], more].concat());
    for form in FRAME_FORMS {
        assert_eq!(read(form, &with(&[98])), Err(3));
        assert_eq!(read(form, &with(&[61])), Err(6));
        assert_eq!(read(form, &with(&[61, 64])), Err(4));
        // TFOM 7: three ones more, and the sign for an even number.
        assert_eq!(read(form, &with(&[71, 72, 73, 64])), Err(4));
        // A sign on zero, with daylight saving for an even number.
        assert_eq!(read(form, &with(&[64, 63])), Err(5));
        assert_eq!(read(form, &with(&[80])), Err(5));
        let mut elements = with(&[]);
        elements[61] = 2;
        assert_eq!(read(form, &elements), Err(3));
    }
}

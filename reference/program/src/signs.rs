//! Tests: the sign in the frame, forms 8 and 11 (document 02, W-203).

use crate::bench::{frame_record, frame_with_ones};
use crate::forms::FRAME_FORMS;
use crate::generate::{good_record, Inputs, Random};
use crate::{read, search, write, Heard, Listener, Record};

fn with_offset(offset: i32) -> Record {
    Record {
        offset: Some(offset),
        ..frame_record()
    }
}

/// What a write answers, and the bytes that it leaves in a buffer of 101.
fn written(form: u32, record: &Record) -> (Result<usize, u32>, Vec<u8>) {
    let mut buffer = vec![0x55; 101];
    let answer = write(form, record, &mut buffer);
    (answer, buffer)
}

/// The frame of case L with more ones in it.
fn l_with(more: &[usize]) -> Vec<u8> {
    frame_with_ones(&[&[30, 52, 56], more].concat())
}

#[test]
fn a_site_in_utc_plus_1_is_read_as_utc_plus_1() {
    // "The offset that is added to the encoded time to reach UTC" is minus one hour there.
    let frame = l_with(&[64, 65, 75]);
    assert_eq!(read(8, &frame), Ok(with_offset(60)));
    assert_eq!(read(11, &frame), Ok(with_offset(-60)));
}

/// Elements that are 1.
type Ones = &'static [usize];

/// An offset, the ones of its hours and half hour, and the ones of sign and parity in form 8 and in
/// form 11. Case L has three ones without its parity.
const OFFSETS: [(i32, Ones, Ones, Ones); 13] = [
    (0, &[], &[75], &[75]),
    (30, &[70], &[64, 75], &[]),
    (-30, &[70], &[], &[64, 75]),
    (60, &[65], &[64, 75], &[]),
    (-60, &[65], &[], &[64, 75]),
    (90, &[65, 70], &[64], &[75]),
    (-90, &[65, 70], &[75], &[64]),
    (210, &[65, 66, 70], &[64, 75], &[]),
    (-210, &[65, 66, 70], &[], &[64, 75]),
    (330, &[65, 67, 70], &[64, 75], &[]),
    (-330, &[65, 67, 70], &[], &[64, 75]),
    (840, &[66, 67, 68], &[64, 75], &[]),
    (-840, &[66, 67, 68], &[], &[64, 75]),
];

#[test]
fn each_rule_element_by_element() {
    for (offset, size, in_8, in_11) in OFFSETS {
        for (form, sign) in [(8, in_8), (11, in_11)] {
            let frame = l_with(&[size, sign].concat());
            assert_eq!(read(form, &frame), Ok(with_offset(offset)), "form {form}");
            let (answer, buffer) = written(form, &with_offset(offset));
            assert_eq!(answer, Ok(100));
            assert_eq!((&buffer[..100], buffer[100]), (&frame[..], 0x55));
        }
    }
}

/// "The two frames of one record differ exactly at 64 and 75, and only where its offset is not
/// zero."
#[test]
fn the_two_frames_of_one_record() {
    let mut random = Random::new(11);
    for offset in (-840..=840).step_by(30) {
        for _ in 0..20 {
            let record = Record {
                offset: Some(offset),
                ..good_record(8, &mut random)
            };
            let [one, other] = FRAME_FORMS.map(|form| written(form, &record).1);
            let differ = |place: &usize| one[*place] != other[*place];
            let places: Vec<usize> = (0..100).filter(differ).collect();
            let expected: &[usize] = if offset == 0 { &[] } else { &[64, 75] };
            assert_eq!(places, expected, "{record:?}");
        }
    }
}

/// The same frame under the two numbers: one answer, in which the offset is turned.
#[test]
fn a_frame_under_both_numbers() {
    for form in FRAME_FORMS {
        for input in Inputs::new(form, 12).take(5000) {
            let turned = read(11, &input).map(|record| Record {
                offset: record.offset.map(|offset| -offset),
                ..record
            });
            assert_eq!(read(8, &input), turned);
        }
    }
}

#[test]
fn sign_1_on_a_zero_is_5_and_not_on_half_an_hour() {
    for form in FRAME_FORMS {
        assert_eq!(read(form, &l_with(&[64])), Err(5));
        assert_eq!(read(form, &l_with(&[64, 75])), Err(6));
        assert_eq!(read(form, &l_with(&[64, 70])), Err(6));
        assert!(read(form, &l_with(&[64, 70, 75])).is_ok());
        // Beyond 14:00 with either sign, and element 61 beside sign 1 on a zero: 4 before 5.
        assert_eq!(read(form, &l_with(&[66, 67, 68, 70, 75])), Err(4));
        assert_eq!(read(form, &l_with(&[64, 66, 67, 68, 70])), Err(4));
        assert_eq!(read(form, &l_with(&[61, 64, 75])), Err(4));
        // A sign that is neither 0 nor 1.
        for sign in [2, 3, 255] {
            let mut frame = l_with(&[65]);
            frame[64] = sign;
            assert_eq!(read(form, &frame), Err(3));
        }
    }
}

#[test]
fn a_writer_refuses_with_7_8_9_and_10_in_both() {
    for form in FRAME_FORMS {
        for offset in -900..=900 {
            let answer = match offset {
                -840..=840 if offset % 30 == 0 => Ok(100),
                -840..=840 => Err(9),
                _ => Err(7),
            };
            assert_eq!(written(form, &with_offset(offset)).0, answer, "{offset}");
        }
        // "Filling an absent offset with zero" is a mistake that looks right.
        let without = Record {
            offset: None,
            ..frame_record()
        };
        assert_eq!(written(form, &without), (Err(8), vec![0x55; 101]));
        // The missing field before the unsayable offset, and that before the missing room.
        let unsayable = with_offset(-45);
        let without = Record {
            lsp: None,
            ..unsayable
        };
        for (record, refusal) in [(without, 8), (unsayable, 9), (with_offset(-60), 10)] {
            let mut buffer = [0x55; 99];
            assert_eq!(write(form, &record, &mut buffer), Err(refusal));
            assert_eq!(buffer, [0x55; 99]);
        }
    }
}

/// "Readers and writers no longer give 1 for 11": search and listener still do.
#[test]
fn no_frame_is_searched_or_listened_for() {
    let frame = l_with(&[65]);
    for form in FRAME_FORMS {
        assert!(read(form, &frame).is_ok());
        assert_eq!(search(form, &frame, 0), Err(1));
        let (refusal, listener) = Listener::start(form);
        assert_eq!((refusal, listener.form), (1, 0));
        let bad = Listener {
            form,
            kept: frame[..99].to_vec(),
            distance: 100,
        };
        assert_eq!(bad.clone().feed(2), (bad, Heard::Refused(11)));
    }
}

#[test]
fn a_length_other_than_100_is_2_and_another_number_is_1() {
    let frame = l_with(&[65]);
    for form in FRAME_FORMS {
        assert_eq!(read(form, &frame[..99]), Err(2));
        assert_eq!(read(form, &[&frame[..], &[0]].concat()), Err(2));
        assert_eq!(read(form, b""), Err(2));
    }
    for number in [0, 15, 264, 267, u32::MAX] {
        assert_eq!(read(number, &frame), Err(1));
        assert_eq!(written(number, &with_offset(60)), (Err(1), vec![0x55; 101]));
    }
}

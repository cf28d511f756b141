//! The two frames, forms 8 and 11, on elements that were worked out by hand from documents 01 and 02.

use lindenscoop::{append, read, Date, Form, Record, Refusal};

const FORMS: [Form; 2] = [Form::FRAME, Form::C37118];

/// The marks, and ones at these elements.
fn frame(ones: &[usize]) -> Vec<u8> {
    let element = |at| match at {
        0 => 2,
        _ if at % 10 == 9 => 2,
        _ => u8::from(ones.contains(&at)),
    };
    (0..100).map(element).collect()
}

/// 24-01-01 00:00:00, sync yes, all else no: ones at 30, 52 and 56, without those of the offset.
fn record(offset: i32) -> Record {
    Record {
        date: Date::of_full_year(2024, 1, 1),
        sync: Some(true),
        summer: Some(false),
        offset: Some(offset),
        dsp: Some(false),
        lsp: Some(false),
        ..Record::default()
    }
}

fn written(form: Form, offset: i32) -> Vec<u8> {
    let mut out = Vec::new();
    assert_eq!(append(form, &record(offset), &mut out), Ok(100));
    out
}

/// An hour is a one at 65, the sign one at 64; the ones at 1..75 are even in number by the one at 75.
#[test]
fn sign_1_is_above_zero_in_form_8_and_below_zero_in_form_11() {
    let without = frame(&[30, 52, 56, 65]);
    let signed = frame(&[30, 52, 56, 64, 65, 75]);
    let zero = frame(&[30, 52, 56, 75]);
    for (form, above, below) in [
        (Form::FRAME, &signed, &without),
        (Form::C37118, &without, &signed),
    ] {
        for (offset, expected) in [(60, above), (-60, below), (0, &zero)] {
            assert_eq!(written(form, offset), *expected, "{form} {offset}");
            assert_eq!(read(form, expected), Ok(record(offset)));
        }
    }
}

/// For every offset that a frame can say.
#[test]
fn the_frames_of_a_record_differ_in_sign_and_parity_alone() {
    for offset in (-840..=840).step_by(30) {
        let [first, second] = FORMS.map(|form| written(form, offset));
        let differs: Vec<usize> = (0..100).filter(|at| first[*at] != second[*at]).collect();
        let expected: &[usize] = if offset == 0 { &[] } else { &[64, 75] };
        assert_eq!(differs, expected, "{offset}");
        assert_eq!(read(Form::FRAME, &second), Ok(record(-offset)));
        assert_eq!(read(Form::C37118, &first), Ok(record(-offset)));
    }
}

#[test]
fn both_refuse_the_same() {
    for form in FORMS {
        let sign_on_a_zero = frame(&[30, 52, 56, 64]);
        assert_eq!(read(form, &sign_on_a_zero), Err(Refusal::Disagreement));
        let wrong_parity = frame(&[30, 52, 56, 64, 65]);
        assert_eq!(read(form, &wrong_parity), Err(Refusal::WrongChecksum));
        let mut out = Vec::new();
        for offset in [45, -45, 1, 345] {
            let refused = append(form, &record(offset), &mut out);
            assert_eq!(refused, Err(Refusal::NotExpressible), "{form} {offset}");
        }
        let refused = append(form, &record(870), &mut out);
        assert_eq!(refused, Err(Refusal::BadRecord));
    }
}

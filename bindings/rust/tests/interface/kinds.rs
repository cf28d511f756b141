//! The kinds of a fraction and of a position, each with each: through the block and through the forms that carry one of them. None is ever
//! turned into another.

use lindenscoop::{append, read, Date, Form, Fraction, Position, Record, Refusal};

/// Each kind as the block spells it.
const FRACTIONS: [(&str, Option<Fraction>); 5] = [
    ("-", None),
    ("00", Some(Fraction::Hundredths(0))),
    ("99", Some(Fraction::Hundredths(99))),
    ("007", Some(Fraction::Thousandths(7))),
    ("0000007", Some(Fraction::TenMillionths(7))),
];

const fn degrees(latitude: i32, longitude: i32, altitude: u32) -> Option<Position> {
    Some(Position::Degrees {
        latitude,
        longitude,
        altitude,
    })
}

const fn minutes(latitude: i32, longitude: i32) -> Option<Position> {
    Some(Position::Minutes {
        latitude,
        longitude,
    })
}

const POSITIONS: [(&str, Option<Position>); 7] = [
    ("-", None),
    ("+047.3500 +008.0625 0431", degrees(473_500, 80_625, 431)),
    (
        "-090.0000 -180.0000 9999",
        degrees(-900_000, -1_800_000, 9_999),
    ),
    ("+4721.00 +00803.75", minutes(284_100, 48_375)),
    ("-9000.00 -18000.00", minutes(-540_000, -1_080_000)),
    ("-0000.01 +00059.99", minutes(-1, 5_999)),
    ("+0000.00 +00000.00", minutes(0, 0)),
];

/// A record with everything that these forms carry beside fraction and position.
fn record(fraction: Option<Fraction>, position: Option<Position>) -> Record {
    Record {
        hour: 12,
        date: Date::of_full_year(2024, 1, 1),
        fraction,
        channel: Some(0),
        sync: Some(true),
        fix: Some(true),
        utc: Some(false),
        summer: Some(false),
        change: Some(false),
        leap: Some(false),
        offset: Some(0),
        position,
        dsp: Some(false),
        lsp: Some(false),
        ..Record::default()
    }
}

fn block(fraction: &str, position: &str) -> String {
    format!("date=24-01-01\ntime=12:00:00\nfraction={fraction}\nchannel=0\nsync=yes\nfix=yes\nutc=no\nsummer=no\nchange=no\nleap=no\noffset=+00:00\nposition={position}\ndsp=no\nlsp=no\n")
}

/// Every pair of kinds, spelled and as a record.
fn pairs() -> impl Iterator<Item = (String, Record)> {
    FRACTIONS.into_iter().flat_map(|(spelled, fraction)| {
        POSITIONS
            .into_iter()
            .map(move |(place, position)| (block(spelled, place), record(fraction, position)))
    })
}

#[test]
fn every_pair_of_kinds_goes_through_the_block() {
    for (block, record) in pairs() {
        assert_eq!(record.block().as_deref(), Ok(&*block));
        assert_eq!(read(Form::BLOCK, block.as_bytes()), Ok(record));
    }
    assert_eq!(pairs().count(), 35);
}

/// What a form carries of a record, where it carries both fields that it asks for in its own kind.
fn carried(form: Form, record: &Record) -> Option<(Option<Fraction>, Option<Position>)> {
    match (form, record.fraction, record.position) {
        (Form::CAPTURE, fraction @ Some(Fraction::TenMillionths(_)), _) => Some((fraction, None)),
        (Form::SPA, fraction @ Some(Fraction::Thousandths(_)), _) => Some((fraction, None)),
        (Form::ERLANGEN, _, position @ Some(Position::Degrees { .. })) => Some((None, position)),
        (
            Form::RMC,
            fraction @ Some(Fraction::Hundredths(_)),
            position @ Some(Position::Minutes { .. }),
        ) => Some((fraction, position)),
        _ => None,
    }
}

#[test]
fn a_form_is_written_of_its_own_kind_alone() {
    let mut written = 0;
    for form in [Form::CAPTURE, Form::ERLANGEN, Form::SPA, Form::RMC] {
        for (_, record) in pairs() {
            let mut out = Vec::new();
            let answer = append(form, &record, &mut out);
            let Some(carried) = carried(form, &record) else {
                assert_eq!(answer, Err(Refusal::MissingField), "{form} {record:?}");
                continue;
            };
            assert_eq!(answer.ok(), form.length(), "{form} {record:?}");
            let back = read(form, &out).unwrap();
            assert_eq!((back.fraction, back.position), carried, "{form}");
            written += 1;
        }
    }
    assert_eq!(written, 7 + 10 + 7 + 8);
}

/// Of which some are within the range of another kind.
#[test]
fn values_outside_the_range_of_their_kind_are_refused() {
    let fractions = [
        Fraction::Hundredths(100),
        Fraction::Hundredths(999),
        Fraction::Thousandths(1_000),
        Fraction::TenMillionths(10_000_000),
        Fraction::Hundredths(u32::MAX),
    ];
    for fraction in fractions {
        let refused = record(Some(fraction), None).block();
        assert_eq!(refused, Err(Refusal::BadRecord), "{fraction:?}");
    }
    let positions = [
        minutes(540_001, 0),
        minutes(-540_001, 0),
        minutes(0, 1_080_001),
        minutes(0, -1_080_001),
        minutes(900_000, 0),
        minutes(i32::MIN, 0),
        minutes(0, i32::MIN),
        degrees(900_001, 0, 0),
        degrees(0, 0, 10_000),
    ];
    for position in positions {
        let refused = record(None, position).block();
        assert_eq!(refused, Err(Refusal::BadRecord), "{position:?}");
    }
    assert!(record(None, degrees(540_001, 1_080_001, 0)).block().is_ok());
}

#[test]
fn other_spellings_are_refused() {
    let wrong = [
        ("0", "-", Refusal::WrongByte),
        ("0000", "-", Refusal::WrongByte),
        ("-", "+4721.00 +00803.75 0431", Refusal::WrongByte),
        ("-", "+4721.00 +008.0625", Refusal::WrongByte),
        ("-", "+047.3500 +008.0625", Refusal::WrongByte),
        ("-", "+4721.00 +0803.75", Refusal::WrongByte),
        ("-", "+4721.00 +  803.75", Refusal::WrongByte),
        ("-", "+4760.00 +00803.75", Refusal::OutOfRange),
        ("-", "+4721.00 +00899.99", Refusal::OutOfRange),
        ("-", "+9000.01 +00803.75", Refusal::OutOfRange),
        ("-", "+4721.00 +18000.01", Refusal::OutOfRange),
        ("-", "-0000.00 +00803.75", Refusal::Disagreement),
        ("-", "+4721.00 -00000.00", Refusal::Disagreement),
    ];
    for (fraction, position, refusal) in wrong {
        let block = block(fraction, position);
        assert_eq!(read(Form::BLOCK, block.as_bytes()), Err(refusal), "{block}");
    }
}

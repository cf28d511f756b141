use lindenscoop::{append, read, Date, Form, Fraction, Record, Refusal};

#[test]
fn a_full_year_has_its_century() {
    let digits = (80..=99).chain(0..=79);
    for (year, yy) in (1980..=2079).zip(digits) {
        let date = Date::of_full_year(year, 12, 31).unwrap();
        let (month, day) = (12, 31);
        assert_eq!(date, Date::Full { yy, month, day });
        assert_eq!(date.full_year(), Some(year));
    }
}

#[test]
fn there_is_no_full_year_of_anything_else() {
    for year in [0, 24, 80, 99, 1879, 1979, 2080, 2099, 2179, u32::MAX] {
        assert_eq!(Date::of_full_year(year, 1, 1), None);
    }
    assert_eq!(Date::DayOfYear(24).full_year(), None);
    for yy in [100, 180, 1991, 2024, u32::MAX] {
        let (month, day) = (1, 1);
        assert_eq!(Date::Full { yy, month, day }.full_year(), None);
    }
}

/// Each with its weekday; with that of 2091, a Monday, the one of 1991 is refused.
#[test]
fn strings_of_both_centuries() {
    let standard = |date: &str| format!("\x02D:{date};U:12.00.00;  U \x03").into_bytes();
    let dates = [
        ("01.01.80;T:2", 1980, 1, 1),
        ("01.01.91;T:2", 1991, 1, 1),
        ("31.12.99;T:5", 1999, 12, 31),
        ("01.01.00;T:6", 2000, 1, 1),
        ("31.12.79;T:7", 2079, 12, 31),
    ];
    for (told, year, month, day) in dates {
        let string = standard(told);
        let record = read(Form::STANDARD, &string).unwrap();
        assert_eq!(record.date, Date::of_full_year(year, month, day), "{told}");
        let mut out = Vec::new();
        assert_eq!(append(Form::STANDARD, &record, &mut out), Ok(32));
        assert_eq!(out, string);
    }
    let monday = standard("01.01.91;T:1");
    assert_eq!(read(Form::STANDARD, &monday), Err(Refusal::Disagreement));
}

fn number(yy: u32, month: u32, day: u32) -> Option<u32> {
    Date::Full { yy, month, day }.days_since_1980()
}

#[test]
fn days_are_counted_from_1_january_1980() {
    assert_eq!(number(80, 1, 1), Some(0));
    assert_eq!(number(80, 2, 29), Some(59));
    assert_eq!(number(80, 12, 31), Some(365));
    assert_eq!(number(81, 1, 1), Some(366));
    assert_eq!(number(99, 12, 31), Some(7_304));
    assert_eq!(number(0, 1, 1), Some(7_305));
    assert_eq!(number(24, 2, 29), Some(16_130));
    assert_eq!(number(79, 12, 31), Some(36_524));
    let racal = read(Form::RACAL, b"XGU240229000000\r").unwrap().date;
    assert_eq!(racal.and_then(|date| date.days_since_1980()), Some(16_130));
}

#[test]
fn what_is_no_date_has_no_number() {
    for (yy, month, day) in [(91, 2, 29), (24, 2, 30), (24, 4, 31), (24, 1, 32)] {
        assert_eq!(number(yy, month, day), None);
    }
    for other in [0, 100, 2024, u32::MAX] {
        assert_eq!(number(24, other, 1), None);
        assert_eq!(number(24, 1, other), None);
    }
    for yy in [100, 1980, 1991, 2000, 2024, u32::MAX] {
        assert_eq!(number(yy, 1, 1), None);
    }
    for day in [0, 1, 60, 366, u32::MAX] {
        assert_eq!(Date::DayOfYear(day).days_since_1980(), None);
    }
}

/// The dates that a record may have are those with a number, and each has one more than the date before; 79 is the last year.
#[test]
fn every_day_is_counted() {
    let mut count = 0;
    for yy in (80..=99).chain(0..=79).chain(100..=101) {
        for (month, day) in (0..=13).flat_map(|month| (0..=32).map(move |day| (month, day))) {
            let date = Date::Full { yy, month, day };
            let record = Record {
                date: Some(date),
                ..Record::default()
            };
            let exists = append(Form::RACAL, &record, &mut Vec::new()).is_ok();
            let counted = exists.then_some(count);
            assert_eq!(date.days_since_1980(), counted, "{date:?}");
            count += u32::from(exists);
        }
    }
    assert_eq!(count, 36_525);
}

/// Of the string itself, so that the kinds are the library's.
#[test]
fn a_fraction_is_its_digits() {
    let spa = read(Form::SPA, b">900WD:24-01-01 12.00;00.000:3A\r")
        .unwrap()
        .fraction;
    assert_eq!(spa.map(|f| (f.value(), f.digits())), Some((0, 3)));
    let capture = read(Form::CAPTURE, b"CH0 01.01.24 12:00:00.0000431\r\n")
        .unwrap()
        .fraction;
    assert_eq!(capture.map(|f| (f.value(), f.digits())), Some((431, 7)));
    assert_eq!(capture, Some(Fraction::TenMillionths(431)));
    let string = b"$GPRMC,235960.99,V,0000.01,S,00000.01,W,0.0,0.0,290224,0.0,E*44\r\n";
    let rmc = read(Form::RMC, string).unwrap().fraction;
    assert_eq!(rmc.map(|f| (f.value(), f.digits())), Some((99, 2)));
    assert_eq!(rmc, Some(Fraction::Hundredths(99)));
}

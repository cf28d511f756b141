use std::io::{self, Read};

use lindenscoop::{append, heard, telegrams, Date, Form, Found, Fraction, Position, Record};

/// Hands out a few bytes at a time, interrupted before each of them.
struct Dripping<'a> {
    bytes: &'a [u8],
    size: usize,
    interrupted: bool,
}

impl Read for Dripping<'_> {
    fn read(&mut self, buffer: &mut [u8]) -> io::Result<usize> {
        self.interrupted = !self.interrupted;
        if self.interrupted {
            return Err(io::ErrorKind::Interrupted.into());
        }
        let size = self.size.min(buffer.len());
        self.bytes.take(size as u64).read(buffer).inspect(|read| {
            self.bytes = &self.bytes[*read..];
        })
    }
}

fn record(form: Form, second: u32) -> Record {
    Record {
        second,
        date: match form {
            Form::SYSPLEX => Some(Date::DayOfYear(366)),
            _ => Date::of_full_year(2024, 1, 1),
        },
        fraction: match form {
            Form::SPA => Some(Fraction::Thousandths(7)),
            Form::CAPTURE => Some(Fraction::TenMillionths(7)),
            Form::RMC => Some(Fraction::Hundredths(7)),
            _ => None,
        },
        channel: (form == Form::CAPTURE).then_some(1),
        ..Record::default()
    }
}

/// The same with the flags and the place that the form carries.
fn carried(form: Form, second: u32) -> Record {
    let is = |forms: &[Form]| forms.contains(&form);
    let both = is(&[Form::STANDARD, Form::ERLANGEN]);
    let sat = is(&[Form::SAT]);
    let position = match form {
        Form::ERLANGEN => Some(Position::Degrees {
            latitude: -473500,
            longitude: 80625,
            altitude: 431,
        }),
        Form::RMC => Some(Position::Minutes {
            latitude: -284100,
            longitude: 48375,
        }),
        _ => None,
    };
    Record {
        sync: (both || sat || is(&[Form::SYSPLEX, Form::RMC])).then_some(false),
        fix: both.then_some(true),
        utc: (sat || is(&[Form::STANDARD])).then_some(false),
        summer: (both || sat).then_some(true),
        change: (both || sat).then_some(true),
        leap: both.then_some(false),
        offset: is(&[Form::ERLANGEN]).then_some(-210),
        position,
        ..record(form, second)
    }
}

/// A stream with strings at known places, noise and halves of strings between them.
fn stream(form: Form) -> (Vec<u8>, Vec<Found>) {
    let (mut bytes, mut strings) = (Vec::new(), Vec::new());
    for second in 0..60 {
        let record = carried(form, second);
        let noise = [0, 0, 1, 5, 17, 300][second as usize % 6];
        bytes.resize(bytes.len() + noise, b"X\x02.>\x01T$"[second as usize % 7]);
        strings.push(Found {
            place: bytes.len(),
            record,
        });
        append(form, &record, &mut bytes).unwrap();
        if second % 7 == 0 {
            append(form, &record, &mut bytes).unwrap();
            bytes.truncate(bytes.len() - 1);
        }
    }
    (bytes, strings)
}

#[test]
fn telegrams_and_heard_tell_where_each_string_stands() {
    for form in Form::ALL.iter().copied().filter(|form| form.is_serial()) {
        let (bytes, strings) = stream(form);
        let found: Vec<Found> = telegrams(form, &bytes).unwrap().collect();
        assert_eq!(found, strings, "{form}");
        for size in [1, 7, 66, 70_000] {
            let reader = Dripping {
                bytes: &bytes,
                size,
                interrupted: false,
            };
            let found: io::Result<Vec<Found>> = heard(form, reader).unwrap().collect();
            assert_eq!(found.unwrap(), strings, "{form} in pieces of {size}");
        }
    }
}

/// More than a piece of the iterator's own buffer.
#[test]
fn places_go_on_over_a_long_stream() {
    let mut bytes = vec![b'.'; 200_000];
    let place = bytes.len();
    append(Form::RACAL, &record(Form::RACAL, 1), &mut bytes).unwrap();
    let found: Vec<Found> = heard(Form::RACAL, &bytes[..])
        .unwrap()
        .map(Result::unwrap)
        .collect();
    assert_eq!(found.len(), 1);
    assert_eq!((found[0].place, found[0].record.second), (place, 1));
}

/// An error of the reader is handed on, and what is read after it is heard with its place.
#[test]
fn an_error_of_the_reader_is_told() {
    struct Failing(u32);
    impl Read for Failing {
        fn read(&mut self, buffer: &mut [u8]) -> io::Result<usize> {
            self.0 += 1;
            match self.0 {
                1 => (&b"..XGU000229"[..]).read(buffer),
                2 => Err(io::Error::other("the cable was pulled")),
                3 => (&b"000000\r"[..]).read(buffer),
                _ => Ok(0),
            }
        }
    }
    let mut strings = heard(Form::RACAL, Failing(0)).unwrap();
    assert_eq!(
        strings.next().unwrap().unwrap_err().to_string(),
        "the cable was pulled"
    );
    assert_eq!(strings.next().unwrap().unwrap().place, 2);
    assert!(strings.next().is_none());
}

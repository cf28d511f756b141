use lindenscoop::{
    append, heard, mark, read, search, telegrams, Date, Form, Fraction, Listener, Position, Record,
    Refusal,
};

const NAMES: [&str; 12] = [
    "standard",
    "capture",
    "erlangen",
    "spa",
    "racal",
    "sysplex",
    "computime",
    "frame",
    "block",
    "sat",
    "c37118",
    "rmc",
];

/// A record that the form can say: fraction and position are of its kind, where it carries them.
fn whole(form: Form) -> Record {
    let degrees = Position::Degrees {
        latitude: 1,
        longitude: 1,
        altitude: 1,
    };
    let minutes = Position::Minutes {
        latitude: 1,
        longitude: 1,
    };
    let (fraction, position) = match form {
        Form::SPA => (Fraction::Thousandths(1), degrees),
        Form::RMC => (Fraction::Hundredths(1), minutes),
        _ => (Fraction::TenMillionths(1), degrees),
    };
    Record {
        date: Date::of_full_year(2024, 1, 1),
        fraction: Some(fraction),
        channel: Some(0),
        sync: Some(true),
        fix: Some(true),
        utc: Some(false),
        summer: Some(false),
        change: Some(false),
        leap: Some(false),
        offset: Some(0),
        position: Some(position),
        dsp: Some(false),
        lsp: Some(false),
        ..Record::default()
    }
}

#[test]
fn names_and_numbers_are_the_forms() {
    assert_eq!(Form::ALL.len(), NAMES.len());
    for (place, name) in NAMES.iter().enumerate() {
        let form = Form(place as u32 + 1);
        assert_eq!(Form::ALL[place], form);
        assert_eq!(form.to_string(), *name);
        assert_eq!(name.parse(), Ok(form));
        assert_eq!(name.to_uppercase().parse(), Ok(form));
        assert_eq!(form.0.to_string().parse(), Ok(form));
        assert_eq!(Form::try_from(form.0), Ok(form));
        assert_eq!(u32::from(form), form.0);
    }
    assert_eq!(format!("{:>6}|{:<3}", Form::SPA, Form(77)), "   spa|77 ");
}

#[test]
fn the_constants_have_their_names() {
    let constants = [
        Form::STANDARD,
        Form::CAPTURE,
        Form::ERLANGEN,
        Form::SPA,
        Form::RACAL,
        Form::SYSPLEX,
        Form::COMPUTIME,
        Form::FRAME,
        Form::BLOCK,
        Form::SAT,
        Form::C37118,
        Form::RMC,
    ];
    assert_eq!(constants.map(|form| form.name()), NAMES.map(Some));
}

#[test]
fn other_words_and_numbers_are_no_forms() {
    for word in [
        "",
        "0",
        "15",
        "05",
        "010",
        "012",
        "+5",
        " 5",
        "5 ",
        "-1",
        "racal ",
        "4294967297",
        "RACAL1",
        "SAT ",
        "C37.118",
        "GPRMC",
    ] {
        let error = word.parse::<Form>().unwrap_err().to_string();
        assert!(
            error.starts_with(&format!("there is no form {word:?}; ")),
            "{error}"
        );
        assert!(error.ends_with("standard (1), capture (2), erlangen (3), spa (4), racal (5), sysplex (6), computime (7), frame (8), block (9), sat (10), c37118 (11), rmc (12)"), "{error}");
    }
    for number in [0, 15, 77, u32::MAX] {
        assert_eq!(Form::try_from(number), Err(Refusal::UnknownForm));
        assert_eq!((Form(number).name(), Form(number).length()), (None, None));
        assert_eq!(Form(number).to_string(), number.to_string());
    }
}

/// The library knows the forms that have a name, and no others.
#[test]
fn the_library_knows_the_same_forms() {
    for number in (0..300).chain([u32::MAX]) {
        let known = read(Form(number), b"") != Err(Refusal::UnknownForm);
        assert_eq!(Form(number).name().is_some(), known, "form {number}");
    }
}

#[test]
fn lengths_are_those_that_the_library_writes() {
    for form in Form::ALL {
        let mut out = Vec::new();
        let written = append(*form, &whole(*form), &mut out).unwrap();
        if *form == Form::BLOCK {
            assert!(written <= 174 && form.length() == Some(174));
        } else {
            assert_eq!(form.length(), Some(written), "{form}");
        }
    }
}

#[test]
fn a_form_that_is_not_serial_is_refused_wherever_one_is_searched_or_listened_for() {
    let refused = Some(Refusal::UnknownForm);
    let bytes = b"XGU000229000000\r";
    for number in [0, 8, 9, 11, 15, 16, 26, 77, 256, 261, 266, 268, u32::MAX] {
        let form = Form(number);
        assert!(!form.is_serial());
        assert_eq!(search(form, bytes, 0).err(), refused);
        assert_eq!(telegrams(form, bytes).err(), refused);
        assert_eq!(heard(form, &bytes[..]).err(), refused);
        assert_eq!(Listener::new(form).err(), refused);
        assert_eq!(mark(form, bytes, &mut [0; 16]).err(), refused);
    }
    let serial = Form::ALL.iter().filter(|form| form.is_serial());
    assert_eq!(
        serial.map(|form| form.0).collect::<Vec<_>>(),
        [1, 2, 3, 4, 5, 6, 7, 10, 12]
    );
}

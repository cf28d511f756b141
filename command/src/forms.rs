//! The forms by name and number, as the crate over the library has them.

use lindenscoop::{Form, ParseFormError};

use crate::failure::Failure;

/// The forms that search and listener take, in the order of the numbers.
pub fn serial_forms() -> impl Iterator<Item = Form> {
    Form::ALL.iter().copied().filter(|form| form.is_serial())
}

pub fn name(form: Form) -> &'static str {
    form.name().expect("only forms that have a name come here")
}

/// Of the block it is the greatest.
pub fn length(form: Form) -> usize {
    form.length()
        .expect("only forms that have a name come here")
}

/// `standard, capture or racal`
pub fn named(forms: impl Iterator<Item = Form>) -> String {
    let names: Vec<&str> = forms.map(name).collect();
    match names.split_last() {
        Some((last, rest)) if !rest.is_empty() => format!("{} or {last}", rest.join(", ")),
        _ => names.concat(),
    }
}

/// `standard (1), capture (2)`
fn listed(forms: impl Iterator<Item = Form>) -> String {
    let each = forms.map(|form| format!("{form} ({})", form.0));
    each.collect::<Vec<_>>().join(", ")
}

/// A form by its name or number, one of all.
pub fn any(word: &str) -> Result<Form, Failure> {
    word.parse()
        .map_err(|error: ParseFormError| Failure::usage(error.to_string()))
}

/// A form that can be listened for.
pub fn serial(word: &str) -> Result<Form, Failure> {
    let form = any(word)?;
    if form.is_serial() {
        return Ok(form);
    }
    Err(Failure::usage(format!(
        "form {form} is not listened or searched for; choose one of {}",
        listed(serial_forms())
    )))
}

#[cfg(test)]
mod tests {
    use super::*;

    #[test]
    fn lists() {
        let forms = [Form::SPA, Form::RACAL, Form::SAT];
        assert_eq!(named(forms.into_iter()), "spa, racal or sat");
        assert_eq!(named(forms.into_iter().take(1)), "spa");
        assert_eq!(listed(forms.into_iter()), "spa (4), racal (5), sat (10)");
        let numbers: Vec<u32> = serial_forms().map(u32::from).collect();
        assert_eq!(numbers, [1, 2, 3, 4, 5, 6, 7, 10, 12]);
    }

    #[test]
    fn words() {
        let names = [
            (Form::SAT, ["sat", "SAT", "10"]),
            (Form::RMC, ["rmc", "RMC", "12"]),
        ];
        for (form, words) in names {
            for word in words {
                assert_eq!(any(word).unwrap(), form);
                assert_eq!(serial(word).unwrap(), form);
            }
        }
        for word in ["8", "9", "11", "frame", "block", "c37118", "C37118"] {
            assert!(any(word).is_ok());
            let failure = serial(word).unwrap_err();
            assert!(failure.words().ends_with("sat (10), rmc (12)"), "{word}");
        }
        for word in [
            "", "0", "15", "010", "012", "sat ", "satt", "C37.118", "GPRMC",
        ] {
            let failure = any(word).unwrap_err();
            assert!(failure.words().ends_with("c37118 (11), rmc (12)"), "{word}");
        }
    }
}

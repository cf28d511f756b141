//! The words behind a subcommand: options with and without a value, and the rest.

use std::ffi::OsString;
use std::path::PathBuf;

use crate::failure::Failure;
use crate::forms;

/// An option and whether it takes a value.
pub type Known = (&'static str, bool);

#[derive(Debug, Default)]
pub struct Arguments {
    options: Vec<(&'static str, String)>,
    pub rest: Vec<PathBuf>,
}

fn text(word: OsString) -> Result<String, Failure> {
    word.into_string()
        .map_err(|word| Failure::usage(format!("{} is not text", word.to_string_lossy())))
}

impl Arguments {
    pub fn new(words: Vec<OsString>, known: &[Known]) -> Result<Arguments, Failure> {
        Arguments::with_repeats(words, known, &[])
    }

    /// Some options may be given more than once.
    pub fn with_repeats(
        words: Vec<OsString>,
        known: &[Known],
        repeated: &[&str],
    ) -> Result<Arguments, Failure> {
        let mut arguments = Arguments::default();
        let mut words = words.into_iter();
        while let Some(word) = words.next() {
            if word == "--" {
                arguments.rest.extend(words.by_ref().map(PathBuf::from));
            } else if word.to_string_lossy().starts_with('-') && word != "-" {
                arguments.option(text(word)?, &mut words, known)?;
            } else {
                arguments.rest.push(PathBuf::from(word));
            }
        }
        arguments.check_once(repeated)?;
        Ok(arguments)
    }

    fn check_once(&self, repeated: &[&str]) -> Result<(), Failure> {
        let once = self
            .options
            .iter()
            .filter(|(name, _)| !repeated.contains(name));
        for (name, _) in once {
            if self.values(name).len() > 1 {
                return Err(Failure::usage(format!("{name} is given twice")));
            }
        }
        Ok(())
    }

    fn option(
        &mut self,
        word: String,
        words: &mut impl Iterator<Item = OsString>,
        known: &[Known],
    ) -> Result<(), Failure> {
        let (name, inline) = match word.split_once('=') {
            Some((name, value)) => (name, Some(value.to_string())),
            None => (word.as_str(), None),
        };
        let Some((name, takes)) = known.iter().find(|(option, _)| *option == name) else {
            return Err(Failure::usage(format!("there is no option {name} here")));
        };
        let value = match (takes, inline) {
            (false, None) => String::new(),
            (false, Some(_)) => return Err(Failure::usage(format!("{name} takes no value"))),
            (true, Some(value)) => value,
            (true, None) => match words.next() {
                Some(value) => text(value)?,
                None => return Err(Failure::usage(format!("{name} needs a value"))),
            },
        };
        self.options.push((name, value));
        Ok(())
    }

    pub fn value(&self, name: &str) -> Option<&str> {
        self.values(name).first().copied()
    }

    /// All values of an option, in order.
    pub fn values(&self, name: &str) -> Vec<&str> {
        let found = self.options.iter().filter(|(option, _)| *option == name);
        found.map(|(_, value)| value.as_str()).collect()
    }

    pub fn has(&self, name: &str) -> bool {
        self.value(name).is_some()
    }

    /// The value of an option as a number that passes a test.
    pub fn number<T: std::str::FromStr>(
        &self,
        name: &str,
        meaning: &str,
        is_good: impl Fn(&T) -> bool,
    ) -> Result<Option<T>, Failure> {
        let Some(value) = self.value(name) else {
            return Ok(None);
        };
        match value.parse().ok().filter(is_good) {
            Some(number) => Ok(Some(number)),
            None => Err(Failure::usage(format!("{name} {value}: give {meaning}"))),
        }
    }

    /// The form of `--form`.
    pub fn form_option(&self) -> Result<lindenscoop::Form, Failure> {
        let word = self.value("--form");
        forms::serial(word.ok_or_else(|| {
            let names = forms::named(forms::serial_forms());
            Failure::usage(format!("say which form the clock sends: --form {names}"))
        })?)
    }
}

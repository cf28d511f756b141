//! The logs of a call: one or two, each of a rack, with the form that its clock sends.

use std::path::{Path, PathBuf};

use lindenscoop::{Form, Runs};

use crate::arguments::Arguments;
use crate::failure::Failure;
use crate::forms;
use crate::port::Line;
use crate::source::Source;

#[derive(Clone, Debug)]
pub struct Log {
    pub rack: u32,
    pub form: Form,
    path: PathBuf,
}

impl Log {
    /// The log's name without its folder.
    pub fn name(&self) -> String {
        if is_input(&self.path) {
            return "standard input".to_string();
        }
        let name = self.path.file_name().unwrap_or(self.path.as_os_str());
        name.to_string_lossy().into_owned()
    }
}

fn is_input(path: &Path) -> bool {
    path.as_os_str() == "-"
}

/// The logs that are named; the first is rack 0, the second rack 1.
pub fn logs(arguments: &Arguments) -> Result<Vec<Log>, Failure> {
    let paths = &arguments.rest;
    let forms = forms_of(arguments)?;
    check_paths(paths)?;
    if forms.len() > paths.len() {
        return Err(Failure::usage(
            "there are more forms than logs; give --form once for all logs, or once for each",
        ));
    }
    let each = (0..).zip(paths);
    let log = |(rack, path): (u32, &PathBuf)| Log {
        rack,
        form: *forms.get(rack as usize).unwrap_or(&forms[0]),
        path: path.clone(),
    };
    Ok(each.map(log).collect())
}

/// The forms in the order of the logs, one at least.
fn forms_of(arguments: &Arguments) -> Result<Vec<Form>, Failure> {
    let mut forms = vec![arguments.form_option()?];
    for word in arguments.values("--form").into_iter().skip(1) {
        forms.push(forms::serial(word)?);
    }
    Ok(forms)
}

fn check_paths(paths: &[PathBuf]) -> Result<(), Failure> {
    let inputs = paths.iter().filter(|path| is_input(path));
    match paths.len() {
        0 => Err(Failure::usage(
            "name a log, or two for two racks; - is standard input",
        )),
        count if count > Runs::RACKS as usize => Err(Failure::usage(format!(
            "{count} logs are named, and there are two racks; name one log or two"
        ))),
        _ if inputs.count() > 1 => Err(Failure::usage(
            "standard input is one log; name a file for the other rack",
        )),
        _ => Ok(()),
    }
}

/// Opens all logs before one is read, so that a wrong name is told at once.
pub fn open(logs: &[Log], line: &Line) -> Result<Vec<Source>, Failure> {
    let mut sources = Vec::new();
    for log in logs {
        let source = Source::new(&log.path, line)?;
        if logs.len() > 1 {
            // at once, since a port that is named twice would be put back as its second opening found it
            refuse_port(&source)?;
        }
        sources.push(source);
    }
    Ok(sources)
}

/// Two logs are read one behind the other, so that neither can be a port.
fn refuse_port(source: &Source) -> Result<(), Failure> {
    if !source.is_port() {
        return Ok(());
    }
    Err(Failure::usage(format!(
        "{} is a serial port, which has no end; record each rack with `lindenscoop listen DEVICE --form FORM --record FILE`, and name the two files",
        source.name
    )))
}

#[cfg(test)]
mod tests {
    use super::*;

    fn given(words: &[&str]) -> Result<Vec<Log>, Failure> {
        let words = words.iter().map(|word| word.into()).collect();
        logs(&Arguments::with_repeats(
            words,
            &[("--form", true)],
            &["--form"],
        )?)
    }

    /// Rack, form and name of each log.
    fn told(words: &[&str]) -> Vec<(u32, Form, String)> {
        let logs = given(words).unwrap();
        let each = logs.iter().map(|log| (log.rack, log.form, log.name()));
        each.collect()
    }

    #[test]
    fn one_log_or_two() {
        let log = |rack, form, name: &str| (rack, form, name.to_string());
        assert_eq!(
            told(&["--form", "racal", "logs/a.log"]),
            [log(0, Form::RACAL, "a.log")]
        );
        assert_eq!(
            told(&["--form", "1", "a.log", "-"]),
            [
                log(0, Form::STANDARD, "a.log"),
                log(1, Form::STANDARD, "standard input")
            ]
        );
        assert_eq!(
            told(&["--form", "1", "a.log", "a.log", "--form", "racal"]),
            [
                log(0, Form::STANDARD, "a.log"),
                log(1, Form::RACAL, "a.log")
            ]
        );
    }

    #[test]
    fn wrong_calls() {
        let calls: [(&[&str], &str); 6] = [
            (&["a.log"], "say which form"),
            (&["--form", "1"], "name a log"),
            (&["--form", "1", "a", "b", "c"], "3 logs are named"),
            (&["--form", "1", "-", "-"], "standard input is one log"),
            (&["--form", "1", "--form", "5", "a"], "more forms than logs"),
            (&["--form", "1", "--form", "block", "a", "b"], "form block"),
        ];
        for (words, wanted) in calls {
            let failure = given(words).unwrap_err();
            assert!(failure.words().contains(wanted), "{}", failure.words());
            assert_eq!(failure.status(), 2);
        }
    }
}

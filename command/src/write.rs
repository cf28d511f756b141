//! `write`: the strings of JSON lines.

use std::ffi::OsString;
use std::io::{BufRead, BufReader};
use std::path::{Path, PathBuf};

use lindenscoop::{Form, Refusal};

use crate::arguments::Arguments;
use crate::failure::Failure;
use crate::output::Output;
use crate::{forms, record_json, source, style};

/// So much is gathered before it is written, unless the input pauses.
const GATHERED: usize = 1 << 16;

struct Writer {
    form: Form,
    output: Output,
    written: u64,
    refused: u64,
}

/// Whether there was a line and each was written.
pub fn run(words: Vec<OsString>) -> Result<bool, Failure> {
    let arguments = Arguments::new(words, &[])?;
    let Some((form, paths)) = arguments.rest.split_first() else {
        let names = forms::named(Form::ALL.iter().copied());
        return Err(Failure::usage(format!("say which form to write: {names}")));
    };
    let mut writer = Writer {
        form: forms::any(&form.to_string_lossy())?,
        output: Output::new()?,
        written: 0,
        refused: 0,
    };
    let standard_input = [PathBuf::from("-")];
    for path in if paths.is_empty() {
        &standard_input[..]
    } else {
        paths
    } {
        writer.file(path)?;
    }
    if writer.refused > 0 {
        style::error(&format!(
            "lines written: {}, refused: {}",
            writer.written, writer.refused
        ));
    } else if writer.written == 0 {
        style::error("there was no line to write; give JSON lines as `lindenscoop export --json` prints them");
    }
    Ok(writer.refused == 0 && writer.written > 0)
}

impl Writer {
    fn file(&mut self, path: &Path) -> Result<(), Failure> {
        let (file, name) = source::open(path)?;
        let mut input = BufReader::with_capacity(GATHERED, file);
        let mut line = Vec::new();
        for number in 1_u64.. {
            line.clear();
            let read = input
                .read_until(b'\n', &mut line)
                .map_err(|error| Failure::reading(&name, &error))?;
            if read == 0 {
                break;
            }
            if let Err(why) = self.line(&line) {
                self.refused += 1;
                style::error(&format!("{name}, line {number}: {why}"));
            }
            if input.buffer().is_empty() || self.output.pending.len() > GATHERED {
                self.output.flush()?;
            }
        }
        self.output.flush()
    }

    /// Writes the string of a line; an empty line is passed over.
    fn line(&mut self, line: &[u8]) -> Result<(), String> {
        let text = std::str::from_utf8(line).map_err(|error| format!("not UTF-8: {error}"))?;
        if text.trim().is_empty() {
            return Ok(());
        }
        let record = record_json::record(text)?;
        let mut string = [0; 174];
        let length = lindenscoop::write(self.form, &record, &mut string)
            .map_err(|refusal| self.refusal(refusal))?;
        self.output.pending.extend_from_slice(&string[..length]);
        self.written += 1;
        Ok(())
    }

    fn refusal(&self, refusal: Refusal) -> String {
        format!("{} {refusal}", forms::name(self.form))
    }
}

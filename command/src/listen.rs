//! `listen`: prints each record as a block, at once when its string has arrived.

use std::ffi::OsString;

use lindenscoop::Record;

use crate::arguments::{Arguments, Known};
use crate::failure::Failure;
use crate::forms;
use crate::output::Output;
use crate::port::{Line, OPTIONS};
use crate::recording::Recording;
use crate::scan::{scan, Counts};
use crate::source::Source;
use crate::stop::signals;
use crate::style;

const KNOWN: [Known; 4] = [("--form", true), ("--record", true), OPTIONS[0], OPTIONS[1]];

/// Whether anything was heard.
pub fn run(words: Vec<OsString>) -> Result<bool, Failure> {
    let arguments = Arguments::new(words, &KNOWN)?;
    let form = arguments.form_option()?;
    let line = Line::new(&arguments)?;
    let [path] = arguments.rest.as_slice() else {
        return Err(Failure::usage(
            "name one port, file or pipe to listen to, or - for standard input",
        ));
    };
    let mut output = Output::new()?;
    let stop = signals()?;
    let mut source = Source::new(path, &line)?;
    let mut recording = arguments
        .value("--record")
        .map(Recording::new)
        .transpose()?;
    note_start(&source, &arguments, &line, forms::name(form));
    let mut counts = Counts::default();
    let ended = scan(
        form,
        &mut source,
        &stop,
        recording.as_mut(),
        &mut output,
        &mut counts,
        print_block,
    );
    drop(source);
    style::line(&format!(
        "end bytes={} telegrams={}",
        counts.bytes, counts.strings
    ));
    ended?;
    Ok(counts.strings > 0)
}

/// As `heard` prints it: the block and an empty line.
fn print_block(out: &mut Vec<u8>, _: u64, record: &Record) {
    let block = record
        .block()
        .expect("the block takes every record that was heard");
    out.extend_from_slice(block.as_bytes());
    out.push(b'\n');
}

/// Says on what is listened, and what options are for nothing.
pub fn note_start(source: &Source, arguments: &Arguments, line: &Line, form: &str) {
    if source.is_port() {
        style::note(&format!(
            "listening on {} at {} {} for {form}; Ctrl-C ends it",
            source.name, line.baud, line.words
        ));
    } else if OPTIONS.iter().any(|(option, _)| arguments.has(option)) {
        style::note(&format!(
            "{} is not a serial port, so --baud and --framing are not used",
            source.name
        ));
    }
}

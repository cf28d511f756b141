//! `export`: a line of JSON or CSV for each record, with the byte place of its string.

use std::ffi::OsString;
use std::os::fd::OwnedFd;
use std::path::{Path, PathBuf};

use lindenscoop::{Form, Record};

use crate::arguments::{Arguments, Known};
use crate::cells::{self, Keys};
use crate::failure::Failure;
use crate::json;
use crate::output::Output;
use crate::port::{Line, OPTIONS};
use crate::scan::{scan, Counts};
use crate::source::Source;
use crate::stop::signals;
use crate::style;

const KNOWN: [Known; 5] = [
    ("--json", false),
    ("--csv", false),
    ("--form", true),
    OPTIONS[0],
    OPTIONS[1],
];

/// How lines are printed.
enum Layout {
    Json(Box<Keys>),
    Csv,
}

struct Export {
    form: Form,
    line: Line,
    layout: Layout,
    /// whether each line begins with the file's name, as it does for several files
    names: bool,
}

/// Whether anything was heard.
pub fn run(words: Vec<OsString>) -> Result<bool, Failure> {
    let arguments = Arguments::new(words, &KNOWN)?;
    let layout = match (arguments.has("--json"), arguments.has("--csv")) {
        (true, false) => Layout::Json(Box::new(Keys::new())),
        (false, true) => Layout::Csv,
        _ => return Err(Failure::usage("choose one of --json and --csv")),
    };
    if arguments.rest.is_empty() {
        return Err(Failure::usage(
            "name the files to export, or - for standard input",
        ));
    }
    let export = Export {
        form: arguments.form_option()?,
        line: Line::new(&arguments)?,
        layout,
        names: arguments.rest.len() > 1,
    };
    export.all(&arguments.rest)
}

impl Export {
    /// A file that fails does not keep the others from being exported; the last failure is told as the command's.
    fn all(&self, paths: &[PathBuf]) -> Result<bool, Failure> {
        let mut output = Output::new()?;
        let stop = signals()?;
        self.header(&mut output.pending);
        output.flush()?;
        let mut counts = Counts::default();
        let mut failed = None;
        for path in paths {
            match self.one(path, &stop, &mut output, &mut counts) {
                Ok(()) => {}
                Err(failure @ Failure::Output(_)) => return Err(failure),
                Err(failure) => {
                    if let Some(earlier) = failed.replace(failure) {
                        style::error(earlier.words());
                    }
                }
            }
            if counts.stopped {
                style::line(&format!(
                    "end bytes={} telegrams={}",
                    counts.bytes, counts.strings
                ));
                break;
            }
        }
        match failed {
            None => Ok(counts.strings > 0),
            Some(failure) => Err(failure),
        }
    }

    fn one(
        &self,
        path: &Path,
        stop: &OwnedFd,
        output: &mut Output,
        counts: &mut Counts,
    ) -> Result<(), Failure> {
        let mut source = Source::new(path, &self.line)?;
        let name = self.name(path);
        let mut own = Counts::default();
        let ended = scan(
            self.form,
            &mut source,
            stop,
            None,
            output,
            &mut own,
            |out, place, record| {
                self.print(out, &name, place, record);
            },
        );
        counts.bytes += own.bytes;
        counts.strings += own.strings;
        counts.stopped = own.stopped;
        ended
    }

    fn header(&self, out: &mut Vec<u8>) {
        if let Layout::Csv = self.layout {
            let file = if self.names { "file," } else { "" };
            out.extend_from_slice(format!("{file}place,{}\n", cells::COLUMNS).as_bytes());
        }
    }

    /// The file's name as it stands at the head of each line.
    fn name(&self, path: &Path) -> Vec<u8> {
        let text = path.display().to_string();
        match (&self.layout, self.names) {
            (Layout::Json(_), true) => {
                format!("{{\"file\":{},\"place\":", json::quoted(&text)).into_bytes()
            }
            (Layout::Json(_), false) => b"{\"place\":".to_vec(),
            (Layout::Csv, true) if text.contains([',', '"', '\n', '\r']) => {
                format!("\"{}\",", text.replace('"', "\"\"")).into_bytes()
            }
            (Layout::Csv, true) => format!("{text},").into_bytes(),
            (Layout::Csv, false) => Vec::new(),
        }
    }

    fn print(&self, out: &mut Vec<u8>, name: &[u8], place: u64, record: &Record) {
        out.extend_from_slice(name);
        cells::number(out, place, 1);
        match &self.layout {
            Layout::Json(keys) => {
                cells::json_members(out, record, keys);
                out.extend_from_slice(b"}\n");
            }
            Layout::Csv => {
                cells::csv_row(out, record);
                out.push(b'\n');
            }
        }
    }
}

//! `runs`: the runs of heard seconds in a log, or in two, and the gaps between them, as a list and as a picture.

use std::ffi::OsString;

use crate::arguments::{Arguments, Known};
use crate::failure::Failure;
use crate::forms;
use crate::listen::note_start;
use crate::listing::Layout;
use crate::logs::{self, Log};
use crate::output::Output;
use crate::picture_target::PictureTarget;
use crate::port::{Line, OPTIONS};
use crate::rack_lists::RackLists;
use crate::stop::signals;

const KNOWN: [Known; 7] = [
    ("--form", true),
    ("--csv", false),
    ("--json", false),
    ("--svg", true),
    ("--title", true),
    OPTIONS[0],
    OPTIONS[1],
];

/// Whether a second was heard in each log.
pub fn run(words: Vec<OsString>) -> Result<bool, Failure> {
    let arguments = Arguments::with_repeats(words, &KNOWN, &["--form"])?;
    let line = Line::new(&arguments)?;
    let layout = layout(&arguments)?;
    let logs = logs::logs(&arguments)?;
    let title = title(&arguments, &logs)?;
    let mut output = Output::new()?;
    let stop = signals()?;
    let sources = logs::open(&logs, &line)?;
    let target = arguments
        .value("--svg")
        .map(PictureTarget::new)
        .transpose()?;
    for (source, log) in sources.iter().zip(&logs) {
        note_start(source, &arguments, &line, forms::name(log.form));
    }
    let mut lists = RackLists::new(logs, layout, target.is_some());
    let told = lists.tell(sources, &stop, &mut output);
    let Some(target) = target else {
        return told;
    };
    match told.is_ok().then(|| lists.picture(&title)).flatten() {
        Some(picture) => target.write(&picture, &mut output).and(told),
        None => {
            target.leave_empty();
            told
        }
    }
}

fn layout(arguments: &Arguments) -> Result<Option<Layout>, Failure> {
    let is_replaced = arguments.value("--svg") == Some("-");
    match (arguments.has("--csv"), arguments.has("--json")) {
        (true, true) => Err(Failure::usage("choose one of --csv and --json")),
        (false, false) if is_replaced => Ok(None),
        _ if is_replaced => Err(Failure::usage(
            "--svg - prints the picture in place of the list; leave --csv and --json out, or name a file",
        )),
        (true, false) => Ok(Some(Layout::Csv)),
        (false, true) => Ok(Some(Layout::Json)),
        (false, false) => Ok(Some(Layout::Text)),
    }
}

/// The picture's title: the logs' names without their folders, unless another one is given.
fn title(arguments: &Arguments, logs: &[Log]) -> Result<String, Failure> {
    match arguments.value("--title") {
        Some(_) if !arguments.has("--svg") => Err(Failure::usage(
            "--title is that of a picture; say with --svg where it goes",
        )),
        Some(title) if title.trim().is_empty() => {
            Err(Failure::usage("--title is empty; give a text"))
        }
        Some(title) => Ok(title.to_string()),
        None => {
            let names: Vec<String> = logs.iter().map(Log::name).collect();
            Ok(names.join(" and "))
        }
    }
}

//! The command `lindenscoop`: listens to satellite clocks, exports logs, tells which seconds were heard, explains silent logs, writes and simulates time strings.
//!
//! Exit status: 0 heard, 1 nothing heard, 2 a wrong call, 3 a read or write failed.

mod arguments;
mod calendar;
mod cells;
mod clock;
mod damage;
mod export;
mod failure;
mod forms;
mod gaps;
mod hearing;
mod help;
mod hints;
mod json;
mod layout;
mod listen;
mod listing;
mod logs;
mod moment;
mod new_file;
mod output;
mod picture;
mod picture_target;
mod port;
mod progress;
mod rack_lists;
mod record_json;
mod recording;
mod repairs;
mod rmc;
mod runs;
mod scan;
mod simulate;
mod source;
mod stop;
mod style;
mod sys;
mod target;
mod telling;
mod why;
mod write;

use std::env;
use std::ffi::OsString;
use std::process::ExitCode;

use failure::Failure;
use output::Output;

type Run = fn(Vec<OsString>) -> Result<bool, Failure>;

const COMMANDS: [(&str, Run, &str); 6] = [
    ("listen", listen::run, help::LISTEN),
    ("export", export::run, help::EXPORT),
    ("runs", runs::run, help::RUNS),
    ("why", why::run, help::WHY),
    ("write", write::run, help::WRITE),
    ("simulate", simulate::run, help::SIMULATE),
];

fn print(text: &str) -> Result<bool, Failure> {
    let mut output = Output::new()?;
    output.pending.extend_from_slice(text.as_bytes());
    output.flush()?;
    Ok(true)
}

fn command(name: &str) -> Result<(Run, &'static str), Failure> {
    let found = COMMANDS.iter().find(|(known, _, _)| *known == name);
    found.map(|(_, run, text)| (*run, *text)).ok_or_else(|| {
        let names: Vec<&str> = COMMANDS.iter().map(|(name, _, _)| *name).collect();
        Failure::usage(format!(
            "there is no command \"{name}\"; it is one of {}",
            names.join(", ")
        ))
    })
}

/// Whether a word asks for help; what stands behind `--` is a file's name.
fn asks_help(words: &[OsString]) -> bool {
    words
        .iter()
        .take_while(|word| *word != "--")
        .any(|word| word == "--help" || word == "-h")
}

fn run(words: &[OsString]) -> Result<bool, Failure> {
    let Some(first) = words.first() else {
        return Err(Failure::usage("say what to do"));
    };
    let first = first.to_string_lossy();
    match (&*first, words.get(1)) {
        ("--help" | "-h" | "help", None) => print(help::ALL),
        ("--help" | "-h" | "help", Some(name)) => print(command(&name.to_string_lossy())?.1),
        ("--version" | "-V", _) => print(concat!("lindenscoop ", env!("CARGO_PKG_VERSION"), "\n")),
        _ => {
            let (run, text) = command(&first)?;
            if asks_help(&words[1..]) {
                return print(text);
            }
            run(words[1..].to_vec())
        }
    }
}

/// Where help on a wrong call is found.
fn help_for(words: &[OsString]) -> String {
    match words.first().map(|word| word.to_string_lossy()) {
        Some(name) if command(&name).is_ok() => format!("see lindenscoop {name} --help"),
        _ => "see lindenscoop --help".to_string(),
    }
}

fn main() -> ExitCode {
    let words: Vec<OsString> = env::args_os().skip(1).collect();
    match run(&words) {
        Ok(true) => ExitCode::SUCCESS,
        Ok(false) => ExitCode::from(1),
        Err(failure) => {
            style::error(failure.words());
            if let Failure::Usage(_) = failure {
                style::line(&help_for(&words));
            }
            ExitCode::from(failure.status())
        }
    }
}

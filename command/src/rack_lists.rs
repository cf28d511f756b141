//! The list of each rack with its sums, and what is said of it. The racks' logs are read one behind the other: what one rack is told does not
//! depend on the other's records.

use std::os::fd::OwnedFd;

use lindenscoop::{Record, Refusal, Run};

use crate::failure::Failure;
use crate::forms;
use crate::hearing::{Heard, Hearing};
use crate::listing::{Layout, Listing};
use crate::logs::Log;
use crate::output::Output;
use crate::picture::{self, Rack, Subject};
use crate::scan::{scan, Counts};
use crate::source::Source;
use crate::style;

pub struct RackLists {
    logs: Vec<Log>,
    hearing: Hearing,
    /// none where the picture takes the list's place
    layout: Option<Layout>,
}

impl RackLists {
    pub fn new(logs: Vec<Log>, layout: Option<Layout>, is_drawn: bool) -> RackLists {
        RackLists {
            hearing: Hearing::new(logs.len(), is_drawn),
            logs,
            layout,
        }
    }

    /// Prints the list of each rack; whether a second was heard of each. A log that fails does not keep the other from being listed; the
    /// last failure is told as the command's.
    pub fn tell(
        &mut self,
        sources: Vec<Source>,
        stop: &OwnedFd,
        output: &mut Output,
    ) -> Result<bool, Failure> {
        let header = self.layout.map_or("", Layout::header);
        output.pending.extend_from_slice(header.as_bytes());
        output.flush()?;
        let mut told = Ok(true);
        let mut was_stopped = false;
        for (log, source) in self.logs.clone().into_iter().zip(sources) {
            let one = if was_stopped {
                Err(unread(&log, &source))
            } else {
                let mut counts = Counts::default();
                let one = self.tell_rack(&log, source, stop, output, &mut counts);
                was_stopped = counts.stopped;
                one
            };
            told = match (told, one) {
                (Err(earlier), Err(failure)) => {
                    style::error(earlier.words());
                    Err(failure)
                }
                (Err(failure), Ok(_)) | (Ok(_), Err(failure)) => Err(failure),
                (Ok(before), Ok(heard)) => Ok(before && heard),
            };
            if let Err(Failure::Output(_)) = told {
                break;
            }
        }
        told
    }

    /// Prints the list of a rack and its sums; whether a second was heard.
    fn tell_rack(
        &mut self,
        log: &Log,
        source: Source,
        stop: &OwnedFd,
        output: &mut Output,
        counts: &mut Counts,
    ) -> Result<bool, Failure> {
        let is_text = self.layout == Some(Layout::Text);
        if is_text && self.logs.len() > 1 {
            put(output, &heading(log))?;
        }
        let mut listing = Listing::new(log.rack, self.layout.unwrap_or(Layout::Text));
        let read = self.list(log, &mut listing, source, stop, output, counts);
        let (bytes, strings) = (counts.bytes, counts.strings);
        let which = self.which(log);
        style::line(&format!("{which}end bytes={bytes} telegrams={strings}"));
        read?;
        let was_heard = listing.totals.runs > 0;
        if was_heard || self.logs.len() > 1 {
            let passed_over = self.hearing.racks[log.rack as usize].passed_over;
            let summary = listing.summary(passed_over);
            if is_text {
                put(output, &summary)?;
            } else {
                // CSV and JSON have lines of one kind, as those of export
                style::line(&format!("{which}{summary}"));
            }
        }
        if !was_heard {
            style::error(&format!("{which}{}", nothing(log, counts)));
        }
        Ok(was_heard)
    }

    /// What a line on standard error begins with where there are two racks.
    fn which(&self, log: &Log) -> String {
        match self.logs.len() {
            1 => String::new(),
            _ => format!("rack {}: ", log.rack),
        }
    }

    /// Prints each run when it is ended. Where a read fails, what was heard before is printed whole.
    fn list(
        &mut self,
        log: &Log,
        listing: &mut Listing,
        mut source: Source,
        stop: &OwnedFd,
        output: &mut Output,
        counts: &mut Counts,
    ) -> Result<(), Failure> {
        let is_printed = self.layout.is_some();
        let mut print = |ended: Option<Run>, out: &mut Vec<u8>| {
            let lines = ended.map(|run| listing.add(&run)).unwrap_or_default();
            if is_printed {
                out.extend_from_slice(lines.as_bytes());
            }
        };
        let add = |out: &mut Vec<u8>, _: u64, record: &Record| {
            print(self.hearing.add(log.rack, record), out);
        };
        let read = scan(log.form, &mut source, stop, None, output, counts, add);
        if let Err(Failure::Output(_)) = read {
            return read;
        }
        print(self.hearing.end(log.rack), &mut output.pending);
        output.flush()?;
        read
    }

    /// The picture of all racks; none where nothing was heard of any.
    pub fn picture(&self, title: &str) -> Option<String> {
        let nothing = Heard::default();
        let names: Vec<String> = self.logs.iter().map(Log::name).collect();
        let each = self.logs.iter().zip(&names).zip(&self.hearing.racks);
        let racks = each.map(|((log, name), rack)| Rack {
            name,
            form: forms::name(log.form),
            heard: rack.kept.as_ref().unwrap_or(&nothing),
            passed_over: rack.passed_over,
        });
        picture::draw(&Subject {
            title,
            racks: racks.collect(),
        })
    }
}

fn put(output: &mut Output, line: &str) -> Result<(), Failure> {
    output.pending.extend_from_slice(line.as_bytes());
    output.pending.push(b'\n');
    output.flush()
}

/// The line above the list of one of two racks. A name may have letters that would end the line.
fn heading(log: &Log) -> String {
    let name = log.name().replace(char::is_control, "\u{fffd}");
    format!("rack {}: {name}, form {}", log.rack, forms::name(log.form))
}

/// The failure of a log that was not read since the command was stopped before.
fn unread(log: &Log, source: &Source) -> Failure {
    Failure::broken(format!(
        "stopped before {} was read; rack {} is not in the list",
        source.name, log.rack
    ))
}

/// Why there is no run, and what to do.
fn nothing(log: &Log, counts: &Counts) -> String {
    let form = forms::name(log.form);
    if counts.strings == 0 {
        return format!("no string of {form} was heard; `lindenscoop why FILE` says why");
    }
    format!(
        "{} strings of {form} were heard and all passed over, {}. Set the clock to a form that sends the whole date, such as standard, and record again",
        counts.strings,
        Refusal::NoSecond
    )
}

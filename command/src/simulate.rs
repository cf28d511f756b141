//! `simulate`: strings of the running time, as a clock sends them, with damaged ones in between.

use std::ffi::OsString;
use std::os::fd::{AsFd, OwnedFd};
use std::time::{Duration, SystemTime, UNIX_EPOCH};

use lindenscoop::{read, search, write, Form, Refusal};

use crate::arguments::{Arguments, Known};
use crate::clock;
use crate::damage::damaged;
use crate::failure::Failure;
use crate::port::{Line, OPTIONS};
use crate::stop::signals;
use crate::target::{Sent, Target};
use crate::{forms, style, sys};

const KNOWN: [Known; 7] = [
    ("--pty", false),
    ("--to", true),
    ("--damage", true),
    ("--count", true),
    ("--interval", true),
    OPTIONS[0],
    OPTIONS[1],
];

struct Plan {
    form: Form,
    /// each string of this number is damaged
    damage: Option<u64>,
    /// so many strings, damaged ones included
    count: Option<u64>,
    interval: Duration,
}

/// What was sent. Lost strings found no room in a port that nobody reads.
#[derive(Default)]
struct Counts {
    sent: u64,
    damaged: u64,
    lost: u64,
}

impl Plan {
    fn new(arguments: &Arguments) -> Result<Plan, Failure> {
        let [form] = arguments.rest.as_slice() else {
            let names = forms::named(Form::ALL.iter().copied());
            return Err(Failure::usage(format!("name one form: {names}")));
        };
        let interval = arguments.number("--interval", "seconds, such as 1 or 0.2", |seconds| {
            (0.0..=86_400.0).contains(seconds)
        })?;
        Ok(Plan {
            form: forms::any(&form.to_string_lossy())?,
            damage: arguments.number(
                "--damage",
                "a number from 1 on: each string of that number is damaged",
                |number| *number > 0,
            )?,
            count: arguments.number(
                "--count",
                "how many strings to send, from 1 on",
                |number| *number > 0,
            )?,
            interval: Duration::from_secs_f64(interval.unwrap_or(1.0)),
        })
    }
}

/// Whether anything was sent.
pub fn run(words: Vec<OsString>) -> Result<bool, Failure> {
    let arguments = Arguments::new(words, &KNOWN)?;
    let plan = Plan::new(&arguments)?;
    let line = Line::new(&arguments)?;
    let mut target = Target::new(arguments.has("--pty"), arguments.value("--to"))?;
    let stop = signals()?;
    target.set(&line)?;
    let mut counts = Counts::default();
    let ended = plan.send_all(&mut target, &stop, &mut counts);
    let Counts {
        sent,
        damaged,
        lost,
    } = counts;
    style::line(&format!("end sent={sent} damaged={damaged} lost={lost}"));
    ended?;
    Ok(sent > 0)
}

impl Plan {
    fn send_all(
        &self,
        target: &mut Target,
        stop: &OwnedFd,
        counts: &mut Counts,
    ) -> Result<(), Failure> {
        let mut due = self.first(SystemTime::now());
        for number in 1.. {
            if self.count.is_some_and(|count| number > count) || !wait_until(due, stop, target)? {
                break;
            }
            let damage = self
                .damage
                .filter(|each| number % each == 0)
                .map(|each| number / each);
            let string = self.string(damage)?;
            match target.send(&string)? {
                Sent::Whole => counts.sent += 1,
                Sent::Lost => counts.lost += 1,
            }
            counts.damaged += u64::from(damage.is_some());
            due += self.interval;
            // strings missed while the computer slept or the reader was slow are not sent later: a clock goes on with the time
            let now = SystemTime::now();
            if due < now {
                due = self.first(now);
            }
        }
        Ok(())
    }

    /// The next full second, unless strings come faster than that.
    fn first(&self, now: SystemTime) -> SystemTime {
        if self.interval < Duration::from_secs(1) {
            return now;
        }
        let since = now.duration_since(UNIX_EPOCH).unwrap_or_default();
        UNIX_EPOCH + Duration::from_secs(since.as_secs() + 1)
    }

    /// The string of now; a number counts the damaged ones and makes it one.
    fn string(&self, damage: Option<u64>) -> Result<Vec<u8>, Failure> {
        let record = clock::record(self.form, SystemTime::now());
        let mut buffer = [0; 174];
        let refused = |refusal: Refusal| {
            Failure::broken(format!(
                "the computer's time cannot be sent as {}: {refusal}; set its clock",
                forms::name(self.form)
            ))
        };
        let length = record
            .and_then(|record| write(self.form, &record, &mut buffer))
            .map_err(refused)?;
        let string = &buffer[..length];
        Ok(match damage {
            None => string.to_vec(),
            Some(number) => damaged(string, number, |bytes| is_valid(self.form, bytes)),
        })
    }
}

/// Whether a valid string stands in the bytes.
fn is_valid(form: Form, bytes: &[u8]) -> bool {
    match form.is_serial() {
        true => search(form, bytes, 0).is_ok(),
        false => read(form, bytes).is_ok(),
    }
}

/// Waits; false where the user ended it.
fn wait_until(due: SystemTime, stop: &OwnedFd, target: &Target) -> Result<bool, Failure> {
    loop {
        let left = due.duration_since(SystemTime::now()).unwrap_or_default();
        let milliseconds = left.as_micros().div_ceil(1000).min(60_000) as u32;
        let ready = sys::wait(None, stop.as_fd(), target.watched(), Some(milliseconds));
        let ready = ready.map_err(|error| Failure::broken(format!("cannot wait: {error}")))?;
        if ready.stopped {
            return Ok(false);
        }
        if ready.output_ended {
            return Err(target.ended());
        }
        if due <= SystemTime::now() {
            return Ok(true);
        }
    }
}

//! Which seconds from the first to the last were heard, heard again, or are missing, whatever the order in which they came.

use lindenscoop::Run;

use crate::gaps::number_behind;
use crate::hearing::Heard;
use crate::moment::{Moment, MINUTE};

/// Seconds by their numbers, from one up to another that is not among them.
#[derive(Clone, Copy, Debug, PartialEq, Eq)]
pub struct Span {
    pub from: u64,
    pub to: u64,
}

impl Span {
    pub fn seconds(self) -> u64 {
        self.to.saturating_sub(self.from)
    }

    /// What both have; it may be empty.
    pub fn within(self, other: Span) -> Span {
        Span {
            from: self.from.max(other.from),
            to: self.to.min(other.to),
        }
    }

    /// `2024-01-01 12:05:00 to 2024-01-01 12:05:09`, of one that is not empty.
    pub fn words(self) -> String {
        let (first, last) = (Moment::at(self.from), Moment::at(self.to - 1));
        if first == last {
            first.to_string()
        } else {
            format!("{first} to {last}")
        }
    }
}

/// A second 60 that was heard: it has no number of its own.
#[derive(Clone, Copy, Debug, PartialEq, Eq)]
pub struct LeapSecond {
    pub minute: u64,
    pub times: u64,
}

impl LeapSecond {
    pub fn moment(self) -> Moment {
        Moment {
            minute: self.minute,
            second: MINUTE,
        }
    }

    /// The number of the second before, which is of the same minute.
    pub fn number_before(self) -> u64 {
        self.minute * MINUTE + MINUTE - 1
    }
}

/// What was heard of one rack. All lists are in order, and no span touches the next one of its list.
pub struct Coverage {
    /// the first and the last second; none where nothing was heard
    pub ends: Option<(Moment, Moment)>,
    /// from the first second to the last; before and behind it nothing is known
    pub whole: Span,
    pub heard: Vec<Span>,
    /// heard more than once
    pub again: Vec<Span>,
    /// never heard; a leap second that was heard parts two of them
    pub missing: Vec<Span>,
    pub leap_seconds: Vec<LeapSecond>,
    /// how often a run began before the last one had ended
    pub steps_back: u64,
}

impl Coverage {
    pub fn new(log: &Heard) -> Coverage {
        let first = log.runs.iter().map(|run| Moment::of(&run.first)).min();
        let last = log.runs.iter().map(|run| Moment::of(&run.last)).max();
        let ends = first.zip(last);
        let whole = ends.map_or(Span { from: 0, to: 0 }, |(first, last)| Span {
            from: first.number(),
            to: number_behind(last),
        });
        let spans: Vec<Span> = log.runs.iter().map(span).collect();
        let heard = covered(&spans, 1);
        let leap_seconds = leap_seconds(log);
        Coverage {
            ends,
            whole,
            missing: missing(whole, &heard, &leap_seconds),
            heard,
            again: covered(&spans, 2),
            leap_seconds,
            steps_back: steps_back(&log.runs),
        }
    }

    /// How many different seconds were heard.
    pub fn seconds_heard(&self) -> u64 {
        sum(&self.heard) + self.leap_seconds.len() as u64
    }

    pub fn seconds_again(&self) -> u64 {
        let leap = self.leap_seconds.iter().filter(|leap| leap.times > 1);
        sum(&self.again) + leap.count() as u64
    }

    pub fn seconds_missing(&self) -> u64 {
        sum(&self.missing)
    }
}

fn sum(spans: &[Span]) -> u64 {
    spans.iter().map(|span| span.seconds()).sum()
}

/// The seconds of a run that have a number; a second 60 alone leaves it empty.
fn span(run: &Run) -> Span {
    Span {
        from: Moment::of(&run.first).number(),
        to: number_behind(Moment::of(&run.last)),
    }
}

/// What at least so many spans have.
fn covered(spans: &[Span], times: i32) -> Vec<Span> {
    let filled = spans.iter().filter(|span| span.seconds() > 0);
    let mut edges: Vec<(u64, i32)> = filled
        .flat_map(|span| [(span.from, 1), (span.to, -1)])
        .collect();
    // where one ends and another begins, the beginning comes first, so that nothing is parted there
    edges.sort_by_key(|(at, step)| (*at, -step));
    let (mut depth, mut from) = (0, 0);
    let mut found = Vec::new();
    for (at, step) in edges {
        depth += step;
        if step == 1 && depth == times {
            from = at;
        } else if step == -1 && depth == times - 1 && at > from {
            found.push(Span { from, to: at });
        }
    }
    found
}

fn steps_back(runs: &[Run]) -> u64 {
    let pairs = runs.windows(2);
    let back = pairs.filter(|pair| Moment::of(&pair[1].first) < Moment::of(&pair[0].last));
    back.count() as u64
}

fn leap_seconds(log: &Heard) -> Vec<LeapSecond> {
    let mut minutes: Vec<u64> = log.leap_seconds.iter().map(|leap| leap.minute).collect();
    minutes.sort_unstable();
    let each = minutes.chunk_by(|a, b| a == b);
    each.map(|same| LeapSecond {
        minute: same[0],
        times: same.len() as u64,
    })
    .collect()
}

/// What of the whole was not heard.
fn missing(whole: Span, heard: &[Span], leap_seconds: &[LeapSecond]) -> Vec<Span> {
    let leap = leap_seconds.iter().map(|leap| leap.number_before() + 1);
    let mut known: Vec<Span> = leap.map(|at| Span { from: at, to: at }).collect();
    known.extend(heard);
    known.sort_unstable_by_key(|span| (span.from, span.to));
    known.push(Span {
        from: whole.to,
        to: whole.to,
    });
    let mut from = whole.from;
    let mut found = Vec::new();
    for span in known {
        if span.from > from {
            found.push(Span {
                from,
                to: span.from,
            });
        }
        from = from.max(span.to);
    }
    found
}

#[cfg(test)]
pub mod tests {
    use super::*;
    use crate::moment::tests::{moment, second};

    /// A log of runs on 1 January 2024, given as `12:00:00 12:04:59`, with seconds 60.
    pub fn log(runs: &[&str], leap: &[&str]) -> Heard {
        let at = |text: &str| second(&format!("2024-01-01 {text}"));
        let run = |text: &&str| {
            let (first, last) = text.split_once(' ').unwrap();
            let (first, last) = (at(first), at(last));
            // the picture does not look at the count
            let count = 1;
            Run { first, last, count }
        };
        Heard {
            runs: runs.iter().map(run).collect(),
            leap_seconds: leap.iter().map(|text| Moment::of(&at(text))).collect(),
        }
    }

    fn coverage(runs: &[&str], leap: &[&str]) -> Coverage {
        Coverage::new(&log(runs, leap))
    }

    /// Spans by the seconds from 12:00:00 on.
    fn told(spans: &[Span]) -> Vec<(u64, u64)> {
        let noon = moment("2024-01-01 12:00:00").number();
        spans
            .iter()
            .map(|span| (span.from - noon, span.to - noon))
            .collect()
    }

    #[test]
    fn runs_in_order() {
        let found = coverage(&["12:00:00 12:04:59", "12:05:10 12:05:10"], &[]);
        assert_eq!(told(&found.heard), [(0, 300), (310, 311)]);
        assert_eq!(told(&found.missing), [(300, 310)]);
        assert_eq!(told(&[found.whole]), [(0, 311)]);
        assert_eq!((found.seconds_heard(), found.seconds_missing()), (301, 10));
        assert_eq!(found.again, []);
        assert_eq!(
            found.missing[0].words(),
            "2024-01-01 12:05:00 to 2024-01-01 12:05:09"
        );
    }

    #[test]
    fn repeats_and_steps_back() {
        let found = coverage(&["12:00:00 12:00:09", "12:00:09 12:00:19"], &[]);
        assert_eq!(told(&found.heard), [(0, 20)]);
        assert_eq!(told(&found.again), [(9, 10)]);
        assert_eq!(found.again[0].words(), "2024-01-01 12:00:09");
        assert_eq!(found.steps_back, 0);
        // a gap that was heard after the clock was set back is none
        let runs = [
            "12:00:10 12:00:19",
            "12:00:30 12:00:39",
            "12:00:05 12:00:35",
        ];
        let found = coverage(&runs, &[]);
        assert_eq!(told(&found.heard), [(5, 40)]);
        assert_eq!(told(&found.again), [(10, 20), (30, 36)]);
        assert_eq!((found.missing.len(), found.seconds_again()), (0, 16));
        assert_eq!(found.steps_back, 1);
        // set back and not come up again
        let found = coverage(&["12:10:00 12:10:09", "12:00:00 12:00:09"], &[]);
        assert_eq!(told(&found.missing), [(10, 600)]);
        let ends = ["2024-01-01 12:00:00", "2024-01-01 12:10:09"].map(moment);
        assert_eq!(found.ends, Some(ends.into()));
    }

    #[test]
    fn thrice_is_once_again() {
        let found = coverage(
            &[
                "12:00:00 12:00:09",
                "12:00:02 12:00:05",
                "12:00:04 12:00:06",
            ],
            &[],
        );
        assert_eq!(told(&found.again), [(2, 7)]);
        let found = coverage(
            &[
                "12:00:00 12:00:09",
                "12:00:02 12:00:04",
                "12:00:05 12:00:06",
            ],
            &[],
        );
        assert_eq!(told(&found.again), [(2, 7)]);
    }

    #[test]
    fn leap_seconds() {
        let found = coverage(&["12:00:58 12:01:01"], &["12:00:60"]);
        assert_eq!(told(&found.heard), [(58, 62)]);
        assert_eq!((found.seconds_heard(), found.seconds_missing()), (5, 0));
        // alone, at the beginning
        let found = coverage(&["12:00:60 12:00:60", "12:01:02 12:01:02"], &["12:00:60"]);
        assert_eq!(told(&found.missing), [(60, 62)]);
        assert_eq!(found.seconds_heard(), 2);
        // alone, at the end, and heard twice
        let runs = [
            "12:00:57 12:00:57",
            "12:00:60 12:00:60",
            "12:00:60 12:00:60",
        ];
        let found = coverage(&runs, &["12:00:60", "12:00:60"]);
        assert_eq!(told(&found.missing), [(58, 60)]);
        assert_eq!((found.seconds_heard(), found.seconds_again()), (2, 1));
        // alone between two gaps
        let runs = [
            "12:00:50 12:00:57",
            "12:00:60 12:00:60",
            "12:01:05 12:01:05",
        ];
        let found = coverage(&runs, &["12:00:60"]);
        assert_eq!(told(&found.missing), [(58, 60), (60, 65)]);
        // nothing else
        let found = coverage(&["12:00:60 12:00:60"], &["12:00:60"]);
        assert_eq!((found.whole.seconds(), found.seconds_heard()), (0, 1));
        assert_eq!((found.heard.len(), found.missing.len()), (0, 0));
    }

    #[test]
    fn nothing() {
        let found = Coverage::new(&Heard::default());
        assert_eq!((found.ends, found.whole.seconds()), (None, 0));
        assert_eq!((found.seconds_heard(), found.seconds_missing()), (0, 0));
    }
}

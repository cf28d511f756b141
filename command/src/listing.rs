//! The list of a rack's runs and of what lies between them, as text, CSV or JSON, and its sums.

use std::fmt::Write;

use lindenscoop::{Refusal, Run};

use crate::gaps::{between, Between};
use crate::moment::Moment;

/// How lines are printed.
#[derive(Clone, Copy, Debug, PartialEq, Eq)]
pub enum Layout {
    Text,
    Csv,
    Json,
}

/// What a line tells. What it has not is absent, never 0.
struct Line {
    rack: u32,
    kind: &'static str,
    span: Option<(Moment, Moment)>,
    seconds: Option<u64>,
}

/// The sums over the lines of each kind.
#[derive(Clone, Copy, Debug, Default, PartialEq, Eq)]
pub struct Totals {
    pub runs: u64,
    pub heard: u64,
    pub gaps: u64,
    pub missing: u64,
    pub repeats: u64,
    pub steps_back: u64,
}

pub struct Listing {
    rack: u32,
    layout: Layout,
    /// the last second of the run before
    end: Option<Moment>,
    pub totals: Totals,
}

impl Layout {
    /// The line of names.
    pub fn header(self) -> &'static str {
        match self {
            Layout::Csv => "rack,kind,first,last,seconds\n",
            Layout::Text | Layout::Json => "",
        }
    }
}

impl Listing {
    pub fn new(rack: u32, layout: Layout) -> Listing {
        Listing {
            rack,
            layout,
            end: None,
            totals: Totals::default(),
        }
    }

    /// The line of a run, and before it the one of what lies between it and the run before.
    pub fn add(&mut self, run: &Run) -> String {
        let (first, last) = (Moment::of(&run.first), Moment::of(&run.last));
        let mut out = String::new();
        if let Some(end) = self.end.replace(last) {
            out += &self.between(end, first);
        }
        self.totals.runs += 1;
        self.totals.heard += u64::from(run.count);
        let line = Line {
            rack: self.rack,
            kind: "heard",
            span: Some((first, last)),
            seconds: Some(run.count.into()),
        };
        out + &self.line(&line)
    }

    fn between(&mut self, end: Moment, begin: Moment) -> String {
        let (kind, span, seconds) = match between(end, begin) {
            Between::Missing {
                first,
                last,
                seconds,
            } => {
                self.totals.gaps += 1;
                self.totals.missing += seconds;
                ("missing", Some((first, last)), Some(seconds))
            }
            Between::Repeat => {
                self.totals.repeats += 1;
                ("repeat", None, None)
            }
            Between::Back { seconds } => {
                self.totals.steps_back += 1;
                ("back", None, Some(seconds))
            }
        };
        self.line(&Line {
            rack: self.rack,
            kind,
            span,
            seconds,
        })
    }

    fn line(&self, line: &Line) -> String {
        match self.layout {
            Layout::Text => line.text(),
            Layout::Csv => line.csv(),
            Layout::Json => line.json(),
        }
    }

    /// The sums in a line; the refusal is named where records were passed over for it.
    pub fn summary(&self, passed_over: u64) -> String {
        let Totals {
            runs,
            heard,
            gaps,
            missing,
            repeats,
            steps_back,
        } = self.totals;
        let mut out = format!("runs {runs}, seconds heard {heard}, gaps {gaps}, seconds missing {missing}, repeats {repeats}, steps back {steps_back}, records passed over {passed_over}");
        if passed_over > 0 {
            let _ = write!(out, ", {}", Refusal::NoSecond);
        }
        out
    }
}

impl Line {
    fn text(&self) -> String {
        let kind = self.kind;
        match (self.span, self.seconds) {
            (Some((first, last)), Some(seconds)) => {
                format!("{kind:<8} {first}   {last} {seconds:>10} s\n")
            }
            (_, Some(seconds)) => format!("{kind:<8} the next second is {seconds} s earlier\n"),
            (_, None) => format!("{kind:<8} the next second is the same again\n"),
        }
    }

    fn csv(&self) -> String {
        let (first, last) = self.ends().unwrap_or_default();
        let seconds = self.seconds.map(|seconds| seconds.to_string());
        let seconds = seconds.unwrap_or_default();
        let Line { rack, kind, .. } = self;
        format!("{rack},{kind},{first},{last},{seconds}\n")
    }

    fn json(&self) -> String {
        let null = || "null".to_string();
        let ends = self
            .ends()
            .map(|(first, last)| (format!("\"{first}\""), format!("\"{last}\"")));
        let (first, last) = ends.unwrap_or_else(|| (null(), null()));
        let seconds = self
            .seconds
            .map_or_else(null, |seconds| seconds.to_string());
        let Line { rack, kind, .. } = self;
        format!("{{\"rack\":{rack},\"kind\":\"{kind}\",\"first\":{first},\"last\":{last},\"seconds\":{seconds}}}\n")
    }

    fn ends(&self) -> Option<(String, String)> {
        self.span
            .map(|(first, last)| (first.to_string(), last.to_string()))
    }
}

#[cfg(test)]
mod tests {
    use super::*;
    use crate::moment::tests::second;

    /// Runs around a leap second: a gap, a repeat, a step back.
    fn listed(rack: u32, layout: Layout) -> (String, String) {
        let runs = [
            ("2016-12-31 23:59:50", "2016-12-31 23:59:53", 4),
            ("2016-12-31 23:59:55", "2017-01-01 00:00:02", 9),
            ("2017-01-01 00:00:02", "2017-01-01 00:00:04", 3),
            ("2017-01-01 00:00:00", "2017-01-01 00:00:00", 1),
        ];
        let mut listing = Listing::new(rack, layout);
        let mut out = layout.header().to_string();
        for (first, last, count) in runs {
            let (first, last) = (second(first), second(last));
            out += &listing.add(&Run { first, last, count });
        }
        (out, listing.summary(2))
    }

    #[test]
    fn text() {
        let (out, summary) = listed(1, Layout::Text);
        assert_eq!((out.clone(), summary.clone()), listed(0, Layout::Text));
        assert_eq!(
            out,
            "heard    2016-12-31 23:59:50   2016-12-31 23:59:53          4 s\n\
             missing  2016-12-31 23:59:54   2016-12-31 23:59:54          1 s\n\
             heard    2016-12-31 23:59:55   2017-01-01 00:00:02          9 s\n\
             repeat   the next second is the same again\n\
             heard    2017-01-01 00:00:02   2017-01-01 00:00:04          3 s\n\
             back     the next second is 4 s earlier\n\
             heard    2017-01-01 00:00:00   2017-01-01 00:00:00          1 s\n"
        );
        assert_eq!(
            summary,
            format!("runs 4, seconds heard 17, gaps 1, seconds missing 1, repeats 1, steps back 1, records passed over 2, {}", Refusal::NoSecond)
        );
        let none = Listing::new(0, Layout::Text).summary(0);
        assert!(none.ends_with("records passed over 0"), "{none}");
    }

    /// What a line has not is an empty cell or null, never 0.
    #[test]
    fn absent() {
        let (csv, _) = listed(0, Layout::Csv);
        assert!(csv.starts_with("rack,kind,first,last,seconds\n0,heard,2016-12-31 23:59:50,2016-12-31 23:59:53,4\n0,missing,2016-12-31 23:59:54,2016-12-31 23:59:54,1\n"));
        assert!(csv.contains("\n0,repeat,,,\n") && csv.contains("\n0,back,,,4\n"));
        let (json, _) = listed(0, Layout::Json);
        assert!(json.starts_with("{\"rack\":0,\"kind\":\"heard\",\"first\":\"2016-12-31 23:59:50\",\"last\":\"2016-12-31 23:59:53\",\"seconds\":4}\n"));
        let absent = "\"first\":null,\"last\":null,\"seconds\"";
        for line in [
            format!("\n{{\"rack\":0,\"kind\":\"repeat\",{absent}:null}}\n"),
            format!("\n{{\"rack\":0,\"kind\":\"back\",{absent}:4}}\n"),
        ] {
            assert!(json.contains(&line), "{line}");
        }
    }

    /// Every row says which rack it is of, and is else the same.
    #[test]
    fn racks() {
        let (csv, _) = listed(1, Layout::Csv);
        assert_eq!(csv, listed(0, Layout::Csv).0.replace("\n0,", "\n1,"));
        assert_eq!(csv.matches("\n1,").count(), 7);
        let (json, _) = listed(1, Layout::Json);
        assert_eq!(
            json,
            listed(0, Layout::Json)
                .0
                .replace("\"rack\":0,", "\"rack\":1,")
        );
        assert_eq!(json.matches("{\"rack\":1,").count(), 7);
    }
}

//! The lines of the grid: those in which something was heard of some rack, and one for several on which nothing was.

use crate::moment::DAY;
use crate::picture::coverage::{Coverage, Span};
use crate::picture::unit::Unit;

#[derive(Clone, Copy, Debug, PartialEq, Eq)]
pub enum Line {
    /// the date of the lines below, by the day's number
    Date(u64),
    /// by its number: how many such lines there are before it since 1980 began
    Time(u64),
    /// two lines or more in which nothing was heard
    Gathered { first: u64, lines: u64 },
}

/// The lines in which something was heard, as parts from a first to a last one with others between the parts.
pub fn touched(racks: &[Coverage], seconds: u64) -> Vec<(u64, u64)> {
    let heard = racks.iter().flat_map(|coverage| &coverage.heard);
    let mut every: Vec<(u64, u64)> = heard
        .map(|span| (span.from / seconds, (span.to - 1) / seconds))
        .collect();
    let leap = racks.iter().flat_map(|coverage| &coverage.leap_seconds);
    every.extend(leap.map(|leap| {
        let line = leap.number_before() / seconds;
        (line, line)
    }));
    every.sort_unstable();
    let mut parts: Vec<(u64, u64)> = Vec::new();
    for (first, last) in every {
        match parts.last_mut() {
            Some(part) if first <= part.1 + 1 => part.1 = part.1.max(last),
            _ => parts.push((first, last)),
        }
    }
    parts
}

/// All lines, in order.
pub fn lines(racks: &[Coverage], unit: &Unit) -> Vec<Line> {
    let mut lines = Vec::new();
    let mut behind = None;
    let mut day = None;
    for (first, last) in touched(racks, unit.seconds) {
        // one line alone is drawn as it is
        let from = match behind.map(|behind| (behind, first - behind)) {
            Some((alone, 1)) => alone,
            Some((empty, count)) => {
                lines.push(Line::Gathered {
                    first: empty,
                    lines: count,
                });
                first
            }
            None => first,
        };
        for line in from..=last {
            let of = line * unit.seconds / DAY;
            if !unit.is_day() && day.replace(of) != Some(of) {
                lines.push(Line::Date(of));
            }
            lines.push(Line::Time(line));
        }
        behind = Some(last + 1);
    }
    lines
}

/// What a column or several of one kind are.
#[derive(Clone, Copy, Debug, PartialEq, Eq)]
pub enum Kind {
    /// before the first second or behind the last
    Outside,
    Heard,
    Missing,
    /// some seconds of a column heard, others missing
    Mixed,
}

/// Columns beside each other that are of one kind.
#[derive(Clone, Copy, Debug, PartialEq, Eq)]
pub struct Piece {
    pub kind: Kind,
    pub first: u64,
    pub columns: u64,
    /// its seconds, those outside left out
    pub span: Span,
    pub heard: u64,
    pub missing: u64,
}

/// How many seconds of each column the spans have.
fn tally(spans: &[Span], line: Span, unit: &Unit) -> Vec<u64> {
    let mut counts = vec![0; unit.columns() as usize];
    let begin = spans.partition_point(|span| span.to <= line.from);
    for span in spans[begin..].iter().take_while(|span| span.from < line.to) {
        let part = span.within(line);
        let (first, last) = (part.from - line.from, part.to - 1 - line.from);
        for column in first / unit.column..=last / unit.column {
            counts[column as usize] += column_span(line, column, unit).within(part).seconds();
        }
    }
    counts
}

fn column_span(line: Span, column: u64, unit: &Unit) -> Span {
    let from = line.from + column * unit.column;
    Span {
        from,
        to: from + unit.column,
    }
}

/// The seconds of a line.
pub fn line_span(line: u64, unit: &Unit) -> Span {
    let from = line * unit.seconds;
    Span {
        from,
        to: from + unit.seconds,
    }
}

/// What a line is drawn of, from left to right.
pub fn pieces(coverage: &Coverage, line: u64, unit: &Unit) -> Vec<Piece> {
    let line = line_span(line, unit);
    let mut pieces: Vec<Piece> = Vec::new();
    for (column, heard) in (0..).zip(tally(&coverage.heard, line, unit)) {
        let span = column_span(line, column, unit).within(coverage.whole);
        let missing = span.seconds() - heard;
        let kind = match (heard > 0, missing > 0) {
            (false, false) => Kind::Outside,
            (true, false) => Kind::Heard,
            (false, true) => Kind::Missing,
            (true, true) => Kind::Mixed,
        };
        match pieces.last_mut() {
            Some(piece) if piece.kind == kind => {
                piece.columns += 1;
                piece.span.to = span.to;
                piece.heard += heard;
                piece.missing += missing;
            }
            _ => pieces.push(Piece {
                kind,
                first: column,
                columns: 1,
                span,
                heard,
                missing,
            }),
        }
    }
    pieces
}

/// The columns with seconds heard again, as first column, number of columns and number of seconds.
pub fn again(coverage: &Coverage, line: u64, unit: &Unit) -> Vec<(u64, u64, u64)> {
    let line = line_span(line, unit);
    let mut found: Vec<(u64, u64, u64)> = Vec::new();
    for (column, seconds) in (0..).zip(tally(&coverage.again, line, unit)) {
        if seconds == 0 {
            continue;
        }
        match found.last_mut() {
            Some((first, columns, sum)) if *first + *columns == column => {
                *columns += 1;
                *sum += seconds;
            }
            _ => found.push((column, 1, seconds)),
        }
    }
    found
}

#[cfg(test)]
mod tests {
    use std::slice::from_ref;

    use super::*;
    use crate::moment::tests::moment;
    use crate::picture::coverage::tests::log;
    use crate::picture::unit::UNITS;

    fn coverage(runs: &[&str], leap: &[&str]) -> Coverage {
        Coverage::new(&log(runs, leap))
    }

    fn line(text: &str, unit: &Unit) -> u64 {
        moment(&format!("2024-01-01 {text}")).number() / unit.seconds
    }

    #[test]
    fn gathered() {
        let [minute, ..] = &UNITS;
        let found = coverage(&["12:00:00 12:00:09", "12:03:00 12:03:00"], &[]);
        let noon = line("12:00:00", minute);
        let day = Line::Date(16_071);
        let empty = Line::Gathered {
            first: noon + 1,
            lines: 2,
        };
        let wanted = [day, Line::Time(noon), empty, Line::Time(noon + 3)];
        assert_eq!(lines(from_ref(&found), minute), wanted);
        // one line alone is drawn, and none is left out
        let found = coverage(&["12:00:00 12:00:09", "12:02:00 12:02:00"], &[]);
        let wanted = [0, 1, 2].map(|more| Line::Time(noon + more));
        assert_eq!(lines(from_ref(&found), minute)[1..], wanted);
        // what another rack heard is drawn of this one too
        let other = coverage(&["12:01:30 12:01:30", "12:05:00 12:05:00"], &[]);
        let gone_by = coverage(&["12:00:00 12:00:09", "12:02:00 12:02:00"], &[]);
        let both = lines(&[gone_by, other], minute);
        let empty = Line::Gathered {
            first: noon + 3,
            lines: 2,
        };
        assert_eq!(both[1..4], wanted);
        assert_eq!(both[4..], [empty, Line::Time(noon + 5)]);
        // a second 60 has a line although no other second of it was heard
        let found = coverage(&["12:00:60 12:00:60", "12:01:09 12:01:09"], &["12:00:60"]);
        assert_eq!(lines(from_ref(&found), minute)[1..], wanted[..2]);
    }

    #[test]
    fn dates() {
        let [minute, .., days] = &UNITS;
        let mut heard = log(&["23:58:00 23:59:59"], &[]);
        heard.runs[0].last = crate::moment::tests::second("2024-01-02 00:00:00");
        let found = Coverage::new(&heard);
        let last = line("23:59:00", minute);
        let wanted = [
            Line::Date(16_071),
            Line::Time(last - 1),
            Line::Time(last),
            Line::Date(16_072),
            Line::Time(last + 1),
        ];
        assert_eq!(lines(from_ref(&found), minute), wanted);
        assert_eq!(
            lines(from_ref(&found), days),
            [16_071, 16_072].map(Line::Time)
        );
    }

    fn told(pieces: &[Piece]) -> Vec<(Kind, u64, u64, u64, u64)> {
        pieces
            .iter()
            .map(|p| (p.kind, p.first, p.columns, p.heard, p.missing))
            .collect()
    }

    #[test]
    fn seconds_as_columns() {
        let [minute, ..] = &UNITS;
        let found = coverage(&["12:00:05 12:00:19", "12:00:21 12:00:58"], &[]);
        let pieces = pieces(&found, line("12:00:00", minute), minute);
        let wanted = [
            (Kind::Outside, 0, 5, 0, 0),
            (Kind::Heard, 5, 15, 15, 0),
            (Kind::Missing, 20, 1, 0, 1),
            (Kind::Heard, 21, 38, 38, 0),
            (Kind::Outside, 59, 1, 0, 0),
        ];
        assert_eq!(told(&pieces), wanted);
        assert_eq!(pieces[2].span.words(), "2024-01-01 12:00:20");
    }

    /// One missing second shows in a column of many, and so does one that was heard.
    #[test]
    fn mixed_columns() {
        let [_, _, hour, day] = &UNITS;
        let found = coverage(&["12:00:00 12:30:00", "12:30:02 12:59:59"], &[]);
        let of_hour = pieces(&found, line("12:00:00", hour), hour);
        let wanted = [
            (Kind::Heard, 0, 300, 1800, 0),
            (Kind::Mixed, 300, 1, 5, 1),
            (Kind::Heard, 301, 299, 1794, 0),
        ];
        assert_eq!(told(&of_hour), wanted);
        let found = coverage(&["00:00:00 00:00:00", "12:00:00 12:00:00"], &[]);
        let of_day = pieces(&found, line("00:00:00", day), day);
        let wanted = [
            (Kind::Mixed, 0, 1, 1, 143),
            (Kind::Missing, 1, 299, 0, 43_056),
            (Kind::Heard, 300, 1, 1, 0),
            (Kind::Outside, 301, 299, 0, 0),
        ];
        assert_eq!(told(&of_day), wanted);
    }

    #[test]
    fn sums_are_those_of_the_log() {
        let runs = [
            "03:59:58 04:00:03",
            "04:09:59 05:00:00",
            "05:00:02 05:30:31",
            "05:30:33 09:00:00",
            "08:59:00 23:59:59",
        ];
        let found = coverage(&runs, &[]);
        for unit in &UNITS {
            let (mut heard, mut missing, mut twice) = (0, 0, 0);
            for line in lines(from_ref(&found), unit) {
                match line {
                    Line::Date(_) => {}
                    Line::Gathered { lines, .. } => missing += lines * unit.seconds,
                    Line::Time(line) => {
                        let pieces = pieces(&found, line, unit);
                        heard += pieces.iter().map(|piece| piece.heard).sum::<u64>();
                        missing += pieces.iter().map(|piece| piece.missing).sum::<u64>();
                        let columns = pieces.iter().map(|piece| piece.columns);
                        assert_eq!(columns.sum::<u64>(), unit.columns());
                        let again = again(&found, line, unit);
                        twice += again.iter().map(|(_, _, seconds)| seconds).sum::<u64>();
                    }
                }
            }
            let wanted = (found.seconds_heard(), found.seconds_missing(), 61);
            assert_eq!((heard, missing, twice), wanted, "{}", unit.words[0]);
        }
    }

    #[test]
    fn heard_again() {
        let [minute, ..] = &UNITS;
        let found = coverage(
            &[
                "12:00:00 12:00:09",
                "12:00:09 12:00:29",
                "12:00:20 12:01:05",
            ],
            &[],
        );
        let noon = line("12:00:00", minute);
        assert_eq!(again(&found, noon, minute), [(9, 1, 1), (20, 10, 10)]);
        assert_eq!(again(&found, noon + 1, minute), []);
    }
}
